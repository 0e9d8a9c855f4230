"""The standby: it stores what comes, each pass whole or not at all.

The journal only grows, so it may be longer than the last pass says. All other files wait in
`incoming` until the pass is whole, and are then moved to their places. A crash in between is made
good by the next start.
"""
import contextlib
import fcntl
import grp
import json
import os
import shutil
import signal
from collections.abc import Callable, Iterator
from pathlib import Path, PurePosixPath
from typing import Any

from auction.conductor import disk
from auction.folder import FOLDERS, LOGS
from auction.formats.journal import HEAD, Journal, JournalFault

from . import mark
from .facts import FILES, MANIFEST, Manifest, journal_of
from .frames import Frame, Line
from .listing import is_own

INCOMING, LIST = "incoming", "list.json"
LOCK = "standby.lock"


class Unkept(Exception):
    """Why this machine takes no copy."""


@contextlib.contextmanager
def locked(folder: Path) -> Iterator[None]:
    """While this lasts, nobody else writes this copy. The file names the process that may."""
    with open(folder / LOCK, "a", encoding="utf-8") as lock:
        try:
            fcntl.flock(lock, fcntl.LOCK_EX | fcntl.LOCK_NB)
        except OSError as error:
            raise Unkept("another process writes this copy") from error
        lock.truncate(0)
        lock.write(f"{os.getpid()}\n")
        lock.flush()
        yield


def end_keeper(folder: Path) -> None:
    """Ends the process that stores a copy here. It may be ended at any moment."""
    with contextlib.suppress(OSError, ValueError):
        os.kill(int((folder / LOCK).read_text(encoding="ascii")), signal.SIGTERM)


def become_standby(folder: Path) -> None:
    """Makes a folder a standby's before anything else is in it. An Unkept if it is none."""
    found = mark.Mark.read(folder)
    if found is None:
        names = {path.name for path in folder.iterdir()} if folder.exists() else set()
        if names - {f"{mark.NAME}.new"}:  # what a kill has left
            raise Unkept(f"{folder} is there, and is no standby's: put it away")
        folder.mkdir(mode=0o750, parents=True, exist_ok=True)
    if found is None or found.role != mark.STANDBY:
        mark.Mark(mark.STANDBY).store(folder)


class Keeper:
    """Stores the copy that comes over a line."""

    def __init__(self, folder: Path, line: Line, clock: Callable[[], float]) -> None:
        self.folder, self.line, self.clock = folder, line, clock
        self.path = folder / "auction.journal"
        self.journal: Journal | None = None
        self.auction = self.host = ""
        self.begin()

    def begin(self) -> None:
        """Begins a pass: nothing has come of it."""
        self.folders: list[tuple[str, int, str]] = []
        self.files: list[tuple[str, int, str]] = []

    def run(self) -> None:
        """Answers the greeting, and takes passes until the other machine ends."""
        self.greet(self.line.receive())
        while (frame := self.line.receive()).kind != "end":
            self.take(frame)

    def greet(self, frame: Frame) -> None:
        """Learns which auction comes, and says what is here of its journal."""
        if frame.kind != "hello":
            raise Unkept("the other machine says something else")
        says = frame.says
        self.auction, self.host = str(says["auction"]), str(says["host"])
        self.path = self.folder / str(says["journal"])
        finish(self.folder)
        before = Manifest.read(self.folder)
        if before and before.auction != self.auction:
            raise Unkept(f"{self.folder} has a copy of another auction: put it away")
        disk.make_folder(self.path.parent, 0o700)
        if before:
            self.journal = journal_of(self.folder)
        end = self.journal.end if self.journal else 0
        with open(self.path, "ab") as file:
            file.truncate(end)  # what came of a pass that was not whole
        last = self.journal.last if self.journal else None
        place = last.place - 32 if last else HEAD - 32
        digest = self.journal.digest.hex() if self.journal else ""
        self.line.send("have", end=end, digest_at=place, digest=digest, now=self.clock())

    def take(self, frame: Frame) -> None:
        """Takes one frame of a pass."""
        if frame.kind == "journal":
            self.append(int(frame.says["at"]), frame.content)
        elif frame.kind == "folder":
            self.folders.append(place_in(frame))
        elif frame.kind == "file":
            self.stage(place_in(frame), frame.content)
        elif frame.kind == "pass":
            self.end_pass(float(frame.says["time"]), frame.says["files"])
        else:
            raise Unkept(f"the other machine says {frame.kind}")

    def append(self, place: int, piece: bytes) -> None:
        with open(self.path, "ab") as file:
            if file.tell() != place:
                raise Unkept(f"{self.path} has {file.tell()} bytes, and {place} were expected")
            file.write(piece)
            file.flush()
            os.fsync(file.fileno())

    def stage(self, place: tuple[str, int, str], content: bytes) -> None:
        """Writes a file next to the copy."""
        folder = self.folder / INCOMING
        disk.make_folder(folder, 0o700)
        path = folder / str(len(self.files))
        with open(os.open(path, os.O_WRONLY | os.O_CREAT | os.O_TRUNC, 0o600), "wb") as file:
            file.write(content)
            file.flush()
            os.fsync(file.fileno())
        self.files.append(place)

    def end_pass(self, time: float, files: dict[str, str] | None) -> None:
        """Stores a whole pass, and says what is here."""
        now = self.clock()
        if self.files or self.folders or files is not None:
            disk.make_folder(self.folder / INCOMING, 0o700)
            listed = {"folders": self.folders, "files": self.files, "all": files}
            disk.store(self.folder / INCOMING / LIST, json.dumps(listed))
            finish(self.folder)
        if self.journal is None:
            self.journal = journal_of(self.folder)
        self.journal.read_on()
        manifest = Manifest(
            *(self.auction, self.host, str(self.path), time, now - time),
            *(self.journal.end, self.journal.digest.hex()),
        )
        disk.show(self.folder / MANIFEST, manifest.text(), disk.PRIVATE)
        self.begin()
        self.line.send("have", end=self.journal.end, now=now)


def place_in(frame: Frame) -> tuple[str, int, str]:
    """The name, mode, and group in a frame. An Unkept if the name leads elsewhere."""
    name, mode, group = str(frame.says["name"]), int(frame.says["mode"]), str(frame.says["group"])
    if is_own(name) or name.startswith("/") or ".." in PurePosixPath(name).parts:
        raise Unkept(f"{name} is no file of a copy")
    return name, mode & 0o7777, group


def finish(folder: Path) -> None:
    """Carries out a pass that is stored whole, again if it was begun. Drops one that is not."""
    incoming = folder / INCOMING
    if (incoming / LIST).exists():
        listed = json.loads((incoming / LIST).read_bytes())
        for name, mode, group in listed["folders"]:
            (folder / name).mkdir(parents=True, exist_ok=True)
            give(folder / name, mode, group)
        for number, (name, mode, group) in enumerate(listed["files"]):
            if (incoming / str(number)).exists():
                give(incoming / str(number), mode, group)
                os.rename(incoming / str(number), folder / name)
                disk.sync_folder((folder / name).parent)
        if listed["all"] is not None:
            leave_only(folder, listed["all"])
    shutil.rmtree(incoming, ignore_errors=True)


def leave_only(folder: Path, files: dict[str, Any]) -> None:
    """Removes the files that the first machine has no more, and notes the others."""
    before = json.loads((folder / FILES).read_bytes()) if (folder / FILES).exists() else {}
    for name in before.keys() - files.keys():
        disk.unlink(folder / name)
    disk.store(folder / FILES, json.dumps(files))


def give(path: Path, mode: int, group: str) -> None:
    """Gives a path its mode and group, as far as this machine has the group."""
    if os.geteuid() == 0 and group:
        with contextlib.suppress(KeyError):
            os.chown(path, -1, grp.getgrnam(group).gr_gid)
    path.chmod(mode)


def make_own_folders(folder: Path, group: str) -> None:
    """Makes what each machine has for itself."""
    for name, mode, is_of_workers in FOLDERS:
        if is_own(name):
            (folder / name).mkdir(exist_ok=True)
            give(folder / name, mode, group if is_of_workers else "")
    for name in LOGS:
        (folder / "log" / name).touch(0o600)


def keep(folder: Path, line: Line, clock: Callable[[], float]) -> None:
    """Stores what comes until the other machine ends, and says why if it does not."""
    try:
        become_standby(folder)
        with locked(folder):
            Keeper(folder, line, clock).run()
    except (Unkept, JournalFault, OSError, ValueError) as fault:
        with contextlib.suppress(OSError):
            line.send("refused", words=str(fault))
        raise
