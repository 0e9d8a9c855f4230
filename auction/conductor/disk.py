"""Files that survive a crash: each is written next to its place, synced, and renamed into it."""
import contextlib
import fcntl
import os
from collections.abc import Iterator
from pathlib import Path
from typing import TextIO

PRIVATE, PUBLIC = 0o600, 0o644


def store(path: Path, text: str, mode: int = PRIVATE, after: float = 0.0) -> None:
    """Writes a file and brings it to the disk, with a time in a later second than `after`.

    After a crash or a power loss it has its old text or this one, whole.
    """
    prepare(path, text, mode, after)
    put(path)
    sync_folder(path.parent)


def prepare(path: Path, text: str, mode: int, after: float = 0.0) -> None:
    """Writes a file next to its place, and brings it to the disk.

    Its time is in a later second than `after`.
    """
    with fresh_file(path, mode) as file:
        file.write(text)
        file.flush()
        if int(os.fstat(file.fileno()).st_mtime) <= int(after):
            os.utime(file.fileno(), (after, int(after) + 1))
        os.fsync(file.fileno())


def put(path: Path) -> None:
    """Puts a file that was prepared in its place. The name may still be lost in a crash."""
    os.rename(f"{path}.new", path)


def show(path: Path, text: str, mode: int = PUBLIC) -> None:
    """Writes a file whole, without waiting for the disk: for a report that is written again each
    second.
    """
    with fresh_file(path, mode) as file:
        file.write(text)
    os.rename(file.name, path)


def lead(link: Path, target: str) -> None:
    """Makes a symbolic link lead to another place at one moment, without waiting for the disk."""
    unlink(Path(f"{link}.new"))
    os.symlink(target, f"{link}.new")
    os.rename(f"{link}.new", link)


def fresh_file(path: Path, mode: int) -> TextIO:
    """A new file next to this place, open for writing, with exactly this mode whatever the umask
    is.
    """
    opened = os.open(f"{path}.new", os.O_WRONLY | os.O_CREAT | os.O_TRUNC, mode)
    os.fchmod(opened, mode)
    return open(f"{path}.new", "w", encoding="utf-8", opener=lambda *_: opened)


def remove(path: Path) -> None:
    """Removes a file for good."""
    os.unlink(path)
    sync_folder(path.parent)


def sync_folder(folder: Path) -> None:
    """Brings the names in a folder to the disk."""
    opened = os.open(folder, os.O_RDONLY)
    try:
        os.fsync(opened)
    finally:
        os.close(opened)


def make_folder(path: Path, mode: int) -> None:
    """Makes a folder with exactly this mode if it is not there, and leaves one that is there as it
    is.
    """
    if not path.is_dir():
        path.mkdir(parents=True)
        path.chmod(mode)
        sync_folder(path.parent)


@contextlib.contextmanager
def locked(path: Path) -> Iterator[None]:
    """Waits until no other process has this lock. The system releases it however its owner ends."""
    with open(os.open(path, os.O_WRONLY | os.O_CREAT, PRIVATE), "w", encoding="utf-8") as file:
        fcntl.flock(file, fcntl.LOCK_EX)
        yield


@contextlib.contextmanager
def locked_folder(path: Path) -> Iterator[None]:
    """Waits until no other process has the lock of this folder, which needs no file of its own."""
    opened = os.open(path, os.O_RDONLY)
    try:
        fcntl.flock(opened, fcntl.LOCK_EX)
        yield
    finally:
        os.close(opened)


def touch(path: Path) -> None:
    """Makes an empty file, which need not survive a power loss."""
    os.close(os.open(path, os.O_WRONLY | os.O_CREAT, PUBLIC))


def unlink(path: Path) -> None:
    """Removes a file if it is there, which need not survive a power loss."""
    with contextlib.suppress(FileNotFoundError):
        os.unlink(path)


def move(source: Path, target: Path) -> None:
    """Moves a file or a folder to another name for good."""
    os.rename(source, target)
    sync_folder(target.parent)
    sync_folder(source.parent)
