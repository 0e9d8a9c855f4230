"""Metrics for Prometheus. Nothing in them is of a bidder.

Nobody may learn from them whether someone has bid in the open round. So what a sheet changes is
shown as of the last closed round: replies by status, and the journal's length. Free space and
connections are rounded so far down that one sheet does not show.
"""
import dataclasses
import threading
import time
from collections.abc import Callable
from pathlib import Path

from auction.conductor import report
from auction.conductor.context import Context
from auction.conductor.plan import StrangePlan
from auction.conductor.room import free_part
from auction.formats.journal import HEAD, JournalFault

from .counted import KINDS, Counted

LIVE = {"401", "429", "500", "502", "503", "504"}  # statuses that no accepted sheet brings
CONNECTIONS = 10_000  # steps in which connections are shown
PARTS = 20  # of a disk, by which free space is shown
LISTEN = "0A"  # the state of a socket that listens, in /proc/net/tcp


@dataclasses.dataclass(frozen=True)
class Figures:
    """What is known at one moment, without rounding."""

    codes: dict[str, int]
    too_often: dict[str, int]
    connections: int
    journal: int  # bytes up to the last closing
    free: float  # part of the journal's disk
    looked: float | None  # seconds since the conductor looked
    doubts: int
    state: str | None
    log_free: float = 1.0  # part of the log's disk
    signs: bool = False  # whether a service has the key of receipts


NO_FIGURES = Figures({}, {}, 0, HEAD, 1.0, None, 0, None)


def shown(now: Figures, before: Figures) -> Figures:
    """What may be shown of the figures of now, and of those at the last closed round."""
    codes = {**before.codes, **{code: now.codes.get(code, 0) for code in LIVE}}
    return dataclasses.replace(
        now,
        codes=codes,
        connections=now.connections // CONNECTIONS * CONNECTIONS,
        free=int(now.free * PARTS) / PARTS,
        log_free=int(now.log_free * PARTS) / PARTS,
    )


def flag(is_so: bool) -> int:
    return 1 if is_so else 0


def text_of(figures: Figures) -> str:
    """The text that Prometheus reads."""
    waits = {state.value for state in report.WAITS_FOR_A_PERSON}
    looked = -1.0 if figures.looked is None else figures.looked
    lines: list[str] = []

    def add(name: str, kind: str, words: str, values: dict[str, float]) -> None:
        lines.append(f"# HELP clock_auction_{name} {words}")
        lines.append(f"# TYPE clock_auction_{name} {kind}")
        lines.extend(f"clock_auction_{name}{label} {value:g}" for label, value in values.items())

    codes = {f'{{code="{code}"}}': float(figures.codes[code]) for code in sorted(figures.codes)}
    kinds = {f'{{kind="{kind}"}}': float(figures.too_often.get(kind, 0)) for kind in KINDS}
    add("requests_total", "counter", "Requests by status.", codes)
    add("too_often_total", "counter", "Requests refused with 429.", kinds)
    add("connections_used", "gauge", "Connections to the server.", {"": figures.connections})
    add("journal_bytes", "gauge", "The journal, up to the last closing.", {"": figures.journal})
    add("journal_disk_free_ratio", "gauge", "Free part of its disk.", {"": figures.free})
    add("log_disk_free_ratio", "gauge", "Free part of the log's disk.", {"": figures.log_free})
    add("conductor_looked_seconds", "gauge", "Since the conductor looked.", {"": looked})
    add("doubts", "gauge", "Doubts that no word has released.", {"": figures.doubts})
    add("waits_for_a_person", "gauge", "1 if it does.", {"": flag(figures.state in waits)})
    add("server_gone", "gauge", "1 if no answer comes.", {"": flag(figures.state == "gone")})
    add("receipts_signed", "gauge", "1 if a service signs them.", {"": flag(figures.signs)})
    mismatch = flag(figures.state == "mismatch")
    add("server_mismatch", "gauge", "1 if another server answers.", {"": mismatch})
    return "\n".join(lines) + "\n"


def listener(port: int, table: Path = Path("/proc/net/tcp")) -> str:
    """The inode of the socket that listens at a port. Each start of the server has another."""
    for line in table.read_text(encoding="ascii").splitlines()[1:]:
        words = line.split()
        if words[1].endswith(f":{port:04X}") and words[3] == LISTEN:
            return words[9]
    return ""


def is_locked(path: Path, table: Path = Path("/proc/locks")) -> bool:
    """Whether a process has locked a file. Nobody who wants the lock is disturbed."""
    try:
        inode = path.stat().st_ino
    except OSError:
        return False
    lines = table.read_text(encoding="ascii").splitlines()
    return any("FLOCK" in line and f":{inode} " in line for line in lines)


class Meter:
    """Looks once a second, and gives the text."""

    def __init__(self, context: Context, folder: Path) -> None:
        self.context, self.folder = context, folder
        self.counted = Counted(folder)
        self.published, self.before = -1, NO_FIGURES
        self.socket, self.at_start = "", 0
        self.lock = threading.Lock()

    def look(self) -> None:
        """Counts on. When a round is published, its figures may be shown from then on."""
        with self.lock:
            self.counted.allow(self.context.clock.wall())
            self.counted.read_on()
            socket = listener(self.context.settings.port)
            if socket and socket != self.socket:  # another start of the server
                self.socket, self.at_start = socket, self.counted.counts.connections
            published = self.context.public.published()
            if published != self.published:
                self.before = self.figures() if self.published >= 0 else NO_FIGURES
                self.published = published

    def figures(self) -> Figures:
        """The figures of now."""
        counts, context = self.counted.counts, self.context
        shown_now = report.shown(context.folders)
        looked = context.clock.wall() - report.time_of(shown_now) if shown_now else None
        return Figures(
            dict(counts.codes),
            dict(counts.too_often),
            counts.connections - self.at_start,
            self.journal_bytes(),
            free_part(context.settings.journal),
            looked,
            self.doubts(),
            shown_now["state"] if shown_now else None,
            free_part(self.folder / "log"),
            is_locked(context.folders.kept / "receipts.pem"),
        )

    def journal_bytes(self) -> int:
        """The journal's length up to its last closing."""
        journal = self.context.journal
        try:
            journal.read_on()
        except (JournalFault, OSError):
            pass
        last = journal.closings[-1] if journal.closings else None
        return last.place + last.length if last else HEAD

    def doubts(self) -> int:
        """Doubts about any round that no word has released."""
        try:
            plan = self.context.plan_file.read()
        except (StrangePlan, OSError, ValueError):
            return 0
        return sum(not doubt.is_released for doubt in plan.doubts)

    def text(self) -> str:
        """What Prometheus reads now."""
        with self.lock:
            return text_of(shown(self.figures(), self.before))

    def watch(self, say: Callable[[str], None]) -> None:
        """Looks for good. A fault of the disk ends nothing."""
        while True:
            try:
                self.look()
            except OSError as fault:
                say(f"the metrics are not of now: {fault}")
            time.sleep(1)
