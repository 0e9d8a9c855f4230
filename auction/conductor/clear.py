"""Puts an auction's files away whole, so that the folder can begin another auction."""
import contextlib
import fcntl
import os
import shutil
import socket
from collections.abc import Iterator
from pathlib import Path

from . import disk
from .clock import utc
from .settings import Folders, Settings, half_of

# What nginx's folder has of an auction, besides the set-up and the journal. conductor.json stays.
OWN = (
    "bidders.map",
    "by.map",
    "gate",
    "kept",
    "letters",
    "log/refused.log",
    "operator",
    "persons.csv",
    "persons.lock",
    "persons.map",
    "public",
    "receipts",
    "sheet.conf",
    "state",
)
CACHES = ("tmp/cache", "tmp/status")  # pages of the last auction, which nginx would still serve


class ClearFault(Exception):
    """Why nothing is put away."""


def clear(folder: Path, now: float) -> tuple[Path, list[str]]:
    """Moves an auction's files to a new folder in `past`.

    Returns that folder, and what is left elsewhere. If this is killed, the next call continues, and
    until then nothing else begins in this folder.
    """
    settings = Settings.read(folder)
    with contextlib.ExitStack() as stack:
        for path, who in (
            (Folders(folder).state / "run.lock", "a conductor"),
            (Folders(folder).state / "desk.lock", "the desk"),
            (Folders(folder).state / "sending.lock", "`auction standby`"),
            (folder / "kept/receipts.pem", "`auction receipts`"),
            (settings.journal, "a server"),
        ):
            stack.enter_context(unused(path, who))
        if listens(settings.port):
            raise ClearFault(f"a server runs at port {settings.port}")
        past = put_away(folder, settings, now)
    left = [str(file) for file in (settings.journal, settings.setup) if file.exists()]
    return past, left + ([settings.authority] if settings.authority else [])


def put_away(folder: Path, settings: Settings, now: float) -> Path:
    """Moves the files, and empties nginx's caches. Returns where they are."""
    new = half_of(folder)
    files = [folder / name for name in OWN] + [settings.journal, settings.setup]
    there = [file for file in files if file.exists() and folder in file.parents]
    if not there and not new.exists():
        raise ClearFault(f"{folder} has no files of an auction")
    disk.make_folder(new.parent, 0o700)
    disk.make_folder(new, 0o700)
    for file in there:
        disk.move(file, new / file.name)
    for name in CACHES:
        empty(folder / name)
    past = new.parent / utc(now)
    disk.move(new, past)
    return past


@contextlib.contextmanager
def unused(path: Path, who: str) -> Iterator[None]:
    """While this lasts, nobody else locks this file or folder. A ClearFault if somebody has it."""
    if not path.exists():
        yield
        return
    opened = os.open(path, os.O_RDONLY)
    try:
        fcntl.flock(opened, fcntl.LOCK_EX | fcntl.LOCK_NB)
    except OSError as error:
        os.close(opened)
        raise ClearFault(f"{who} runs: it has {path}") from error
    try:
        yield
    finally:
        os.close(opened)


def listens(port: int) -> bool:
    """Whether a process listens at this port."""
    with socket.socket() as asked:
        return asked.connect_ex(("127.0.0.1", port)) == 0


def empty(folder: Path) -> None:
    """Removes what is in a folder, if there is one."""
    for entry in folder.iterdir() if folder.is_dir() else ():
        if entry.is_dir():
            shutil.rmtree(entry)
        else:
            os.unlink(entry)
