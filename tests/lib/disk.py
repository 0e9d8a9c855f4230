"""The system calls of auction/conductor/disk.py, with kills, a full disk, and a loss of power."""
import contextlib
import errno
import os
import pathlib
from collections.abc import Iterator
from typing import Any
from unittest.mock import patch

from auction.conductor import disk

# The report of each second, which needs no step of its own.
UNCOUNTED = ("look.json", "conductor.json")


class Killed(BaseException):
    """The process was killed: none of its own handlers sees that."""


class Disk:
    """Replaces `os` in auction/conductor/disk.py, and counts the calls that change the disk.

    It kills its caller before the call with the number `kill_at`, or before any call about a file
    in the folder `kill_in`. If `is_full`, nothing can be written. It also notes what a loss of
    power would undo: files and names that were not synced. If `counts_reads`, the opening of
    folders and locks counts too.
    """

    def __init__(self, kill_at: int = 0, counts_reads: bool = False) -> None:
        self.count, self.kill_at, self.counts_reads = 0, kill_at, counts_reads
        self.is_full, self.has_killed = False, False
        self.kill_in: pathlib.Path | None = None
        self.synced = ""
        self.undo: list[tuple[pathlib.Path, bytes | None]] = []

    def __getattr__(self, name: str) -> Any:
        return getattr(os, name)

    @contextlib.contextmanager
    def in_use(self) -> Iterator[None]:
        """While this lasts, all files of the conductor go through this disk."""
        with patch.object(disk, "os", self):
            yield

    def step(self, path: Any) -> None:
        """Counts one call, and kills before it if it is time."""
        if pathlib.Path(str(path)).name.startswith(UNCOUNTED):
            return
        self.count += 1
        if self.count == self.kill_at or self.kill_in == pathlib.Path(str(path)).parent:
            self.has_killed = True
            raise Killed

    def note(self, path: Any) -> None:
        """What a name stands for before it changes."""
        path = pathlib.Path(path)
        self.undo.append((path, path.read_bytes() if path.exists() else None))

    def refuse_if_full(self, path: str) -> None:
        if self.is_full:
            raise OSError(errno.ENOSPC, "No space left on device", path)

    def open(self, path: Any, flags: int, mode: int = 0o777) -> int:
        if flags & os.O_CREAT and not str(path).endswith(".lock"):
            self.step(path)
            self.refuse_if_full(str(path))
            if not os.path.exists(path):
                self.note(path)
        elif self.counts_reads:
            self.step(path)
        return os.open(path, flags, mode)

    def fsync(self, descriptor: int) -> None:
        path = os.readlink(f"/proc/self/fd/{descriptor}")
        self.step(path)
        self.refuse_if_full(path)
        if os.path.isdir(path):  # its names are on the disk now
            self.undo = [(name, before) for name, before in self.undo if str(name.parent) != path]
        else:
            self.synced = path
        os.fsync(descriptor)

    def rename(self, source: Any, target: Any) -> None:
        self.step(target)
        if self.synced == str(source):
            self.note(target)
        else:  # a name can be on the disk before the bytes are
            self.undo.append((pathlib.Path(target), b""))
        os.rename(source, target)

    def unlink(self, path: Any) -> None:
        self.step(path)
        self.note(path)
        os.unlink(path)

    def lose_power(self) -> None:
        """Undoes what was not synced."""
        for path, before in reversed(self.undo):
            if before is None:
                path.unlink(missing_ok=True)
            elif path.parent.is_dir():
                path.write_bytes(before)
        self.undo = []


@contextlib.contextmanager
def killed_at(step: int) -> Iterator[Disk]:
    """Runs what is inside until it is killed before this step, or to its end.

    The disk's `has_killed` says which. Each opening counts as a step, also of a folder or a lock.
    """
    used = Disk(step, counts_reads=True)
    with contextlib.suppress(Killed), used.in_use():
        yield used
