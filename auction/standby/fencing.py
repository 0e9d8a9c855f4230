"""The machine that served: it serves nobody any more, and says where its journal ends."""
import contextlib
import fcntl
import os
import signal
import subprocess
import time
from collections.abc import Iterator
from pathlib import Path
from typing import IO

from auction.conductor.clear import listens
from auction.conductor.gate import Gate
from auction.conductor.settings import Folders, Settings
from auction.formats.journal import Journal
from auction.formats.setup import Setup
from auction.ready.auction import Auction

from . import mark
from .judge import End

UNITS = (
    *("clock-auction-conductor", "clock-auction-desk", "clock-auction-nginx"),
    *("clock-auction-receipts", "clock-auction"),
)
PATIENCE = 60  # seconds: a conductor or a command may have the plan, while it closes a round
SYSTEMD = Path("/run/systemd/system")


class Unfenced(Exception):
    """Why it is not sure that this machine serves nobody."""


@contextlib.contextmanager
def plan_locked(folder: Path) -> Iterator[None]:
    """While this lasts, no conductor and no command changes the plan or the gate."""
    end = time.monotonic() + PATIENCE
    (folder / "state").mkdir(mode=0o700, exist_ok=True)
    with open(folder / "state/plan.lock", "w", encoding="utf-8") as file:
        while True:
            try:
                fcntl.flock(file, fcntl.LOCK_EX | fcntl.LOCK_NB)
                break
            except OSError:
                if time.monotonic() > end:
                    raise Unfenced("a conductor or a command has the plan") from None
                time.sleep(0.05)
        yield


def forbid(folder: Path, taker: str) -> None:
    """Marks the folder, and shuts the gate. Nobody opens it again: whoever would must have the
    plan's lock, and looks at the mark then.
    """
    with plan_locked(folder):
        found = mark.Mark.read(folder)
        if found and (found.role, found.taker) not in ((mark.FENCED, ""), (mark.FENCED, taker)):
            raise Unfenced(f"{folder / mark.NAME}: {mark.WORDS.get(found.role, found.role)}")
        mark.Mark(mark.FENCED, taker).store(folder)
        Gate(Folders(folder).gate).become(set())


@contextlib.contextmanager
def stopped(folder: Path) -> Iterator[End]:
    """Ends what serves. While this lasts, no server can have the journal. Yields where it ends."""
    settings = Settings.read(folder)
    stop_units()
    end_master_of_nginx(folder)
    with open(settings.journal, "rb") as file:
        end_owner_of(settings.journal)
        wait_until_free(file)
        check_ports(folder, settings)
        journal = Journal(settings.journal, Setup.read(settings.setup))
        journal.read_on()
        yield End(journal.end, journal.digest.hex())


def stop_units() -> None:
    """Stops the units, if systemd runs them."""
    if SYSTEMD.is_dir():
        subprocess.run(["systemctl", "stop", *UNITS], capture_output=True, check=False)


def end_master_of_nginx(folder: Path) -> None:
    """Ends an nginx that no unit has started."""
    with contextlib.suppress(OSError, ValueError):
        os.kill(int((folder / "tmp/nginx.pid").read_text(encoding="ascii")), signal.SIGTERM)


def end_owner_of(journal: Path) -> None:
    """Ends a server that no unit has started: the process that has the journal open to write."""
    wanted = os.stat(journal)
    for process in Path("/proc").glob("[0-9]*"):
        with contextlib.suppress(OSError):
            if process.name != str(os.getpid()) and writes(process, wanted):
                os.kill(int(process.name), signal.SIGTERM)


def writes(process: Path, wanted: os.stat_result) -> bool:
    """Whether a process has a file open to write."""
    for opened in (process / "fd").iterdir():
        with contextlib.suppress(OSError, IndexError, ValueError):
            found = opened.stat()
            if (found.st_dev, found.st_ino) == (wanted.st_dev, wanted.st_ino):
                flags = (process / "fdinfo" / opened.name).read_text(encoding="ascii")
                words = dict(line.split(":\t", 1) for line in flags.splitlines() if ":\t" in line)
                if int(words["flags"].strip(), 8) & os.O_ACCMODE != os.O_RDONLY:
                    return True
    return False


def wait_until_free(file: IO[bytes]) -> None:
    """Waits until no server has the journal, and has it then."""
    end = time.monotonic() + PATIENCE
    while True:
        try:
            fcntl.flock(file, fcntl.LOCK_EX | fcntl.LOCK_NB)
            return
        except OSError:
            if time.monotonic() > end:
                raise Unfenced("a server still has the journal: end it") from None
            time.sleep(0.05)


def check_ports(folder: Path, settings: Settings) -> None:
    """Nobody listens at the server's port, at the bidders', and at the operator's."""
    auction = Auction(folder, settings.setup, settings.journal, "", 0)
    ports = {settings.port, auction.bidders_port, auction.operators_port}
    end = time.monotonic() + PATIENCE
    while found := sorted(port for port in ports if listens(port)):
        if time.monotonic() > end:
            raise Unfenced(f"somebody still listens at port {found[0]}: end that process")
        time.sleep(0.05)
