"""Taking over: the first machine is fenced, the copy is judged, and this machine may serve."""
import contextlib
import dataclasses
import json
import secrets
import shlex
import socket
import subprocess
import time
from collections.abc import Callable, Iterator
from pathlib import Path
from urllib.parse import urlsplit

from auction.conductor import disk
from auction.conductor.clock import utc
from auction.conductor.settings import Settings, SettingsFault
from auction.folder import link_journal

from . import mark
from .facts import FILES, MANIFEST, Manifest, copy_of
from .frames import Line, Silence
from .judge import Copy, End, Fence, First, Reason, Seen, reasons_against
from .keeping import Keeper, Unkept, end_keeper, finish, locked, make_own_folders
from .refusals import continue_numbers
from .shell import connected

PATIENCE = 40  # seconds in which what is asked to end must end
SECONDS = 3  # in which somebody answers who is there
FIRST = First(Fence.NONE, "", None, False)
TAKEN = "state/taken_over.json"


class NotTaken(Exception):
    """Why this machine does not take over."""


@dataclasses.dataclass(frozen=True)
class Means:
    """How the first machine is fenced, and what else a person says."""

    host: str = ""  # where `auction fence` runs, by `shell`
    shell: str = ""
    cut_off: str = ""  # a command whose status is 0 once the machine is cut off
    is_off: bool = False  # a person's word
    addresses: tuple[str, ...] = ()  # HOST:PORT, at which the first machine may answer
    saved: Path | None = None  # public files that others have saved
    clock_is_right: bool = False


def take_over(folder: Path, means: Means, clock: Callable[[], float] = time.time) -> str:
    """Lets this machine serve the auction, or raises NotTaken. Returns how it is known that the
    first one serves nobody.
    """
    found = mark.Mark.read(folder)
    if found is None or found.role != mark.STANDBY:
        raise NotTaken(Reason.SERVES.value)
    taker = found.taker or secrets.token_hex(8)
    if means.host:
        mark.Mark(mark.STANDBY, taker).store(folder)
        with fenced(folder, means, taker) as (first, line):
            with locked_soon(folder):
                pass_of(folder, line, clock)
                return judged(folder, means, first, taker, clock)
    with locked_soon(folder):
        finish(folder)
        first = FIRST._replace(fence=fence_of(means))
        return judged(folder, means, first, taker, clock)


# ---- The fence


@contextlib.contextmanager
def fenced(folder: Path, means: Means, taker: str) -> Iterator[tuple[First, Line]]:
    """Fences the first machine from here. Yields what it says, and a line for its last pass."""
    words = ["auction", "fence", str(folder), "--taker", taker, "--send"]
    with connected(means.shell, means.host, words) as line:
        answer = line.receive(3 * PATIENCE)
        if answer.kind != "fenced":
            raise NotTaken(f"{means.host} is not fenced: {answer.says.get('words')}")
        says = answer.says
        end = End(int(says["end"]), str(says["digest"]))
        yield First(Fence.STOPPED, str(says["taker"]), end, False), line


def fence_of(means: Means) -> Fence:
    """How the first machine is known to serve nobody, if it is not asked itself."""
    if means.cut_off:
        ran = subprocess.run(shlex.split(means.cut_off), check=False)
        if ran.returncode:
            raise NotTaken(f"{means.cut_off} ended with status {ran.returncode}")
        return Fence.CUT_OFF
    return Fence.WORD if means.is_off else Fence.NONE


def answers(address: str) -> bool:
    """Whether somebody accepts a connection at HOST:PORT."""
    host, _, port = address.rpartition(":")
    try:
        with socket.create_connection((host.strip("[]"), int(port)), SECONDS):
            return True
    except OSError:
        return False


def addresses_of(folder: Path, means: Means) -> Iterator[str]:
    """Where the first machine may answer: as the person says, and where bidders come."""
    yield from means.addresses
    with contextlib.suppress(SettingsFault, ValueError):
        url = urlsplit(Settings.read(folder).bidders)
        if url.hostname:
            yield f"{url.hostname}:{url.port or 443}"


# ---- The copy


@contextlib.contextmanager
def locked_soon(folder: Path) -> Iterator[None]:
    """Ends whoever writes the copy, and waits until nobody does."""
    end = time.monotonic() + PATIENCE
    with contextlib.ExitStack() as stack:
        while True:
            try:
                stack.enter_context(locked(folder))
                break
            except Unkept:
                if time.monotonic() > end:
                    raise NotTaken("the first machine still copies to this one") from None
                end_keeper(folder)
                time.sleep(0.1)
        yield


def pass_of(folder: Path, line: Line, clock: Callable[[], float]) -> None:
    """Stores the last pass of a machine that was fenced."""
    try:
        Keeper(folder, line, clock).run()
    except (Unkept, Silence) as fault:
        raise NotTaken(f"the last copy is not whole: {fault}") from fault


def judged(folder: Path, means: Means, first: First, taker: str, clock: Callable[[], float]) -> str:
    """Takes over, unless there is a reason against it."""
    first = first._replace(answers=any(map(answers, addresses_of(folder, means))))
    copy = copy_of(folder, means.saved)
    seen = Seen(copy, first, taker, clock(), means.clock_is_right)
    if reasons := reasons_against(seen):
        raise NotTaken("; ".join(reason.value for reason in reasons))
    take(folder, first, taker, copy, clock())
    return first.fence.value


def take(folder: Path, first: First, taker: str, copy: Copy, now: float) -> None:
    """Lets this folder serve. The last thing that goes is the mark that forbids it."""
    manifest = Manifest.read(folder)
    said = {
        "copied": utc(copy.copied_at),
        "fence": first.fence.value,
        "host": manifest.host if manifest else "",
        "taker": taker,
        "time": utc(now),
    }
    settings = Settings.read(folder)
    make_own_folders(folder, settings.readers)
    link_journal(folder, settings.journal)
    continue_numbers(folder)
    disk.store(folder / TAKEN, json.dumps(said) + "\n")
    disk.remove(folder / mark.NAME)
    for name in (MANIFEST, FILES):
        disk.unlink(folder / name)
