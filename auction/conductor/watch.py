"""How far the clock was set, how much of a window bidders missed, and what the journal had, also
across restarts.
"""
import dataclasses
import json

from auction.formats.journal import Journal, Read

from . import disk, stored
from .clock import Clock
from .settings import Folders
from .timetable import Window

# Seconds between two looks, after which nobody knows whether bidders could reach the auction.
UNSEEN = 30


@dataclasses.dataclass(frozen=True)
class Missed:
    """How much of a round's window bidders missed, as far as it was looked at.

    `was_reached` is whether they could reach the auction at the last look.
    """

    round: int
    opens: int
    until: float
    seconds: float = 0.0
    was_reached: bool = True

    def after(self, now: float, is_open: bool, is_reached: bool) -> "Missed":
        """This with one more look, at which the doors were open or not."""
        gap = max(0.0, now - self.until)
        is_seen = is_open and is_reached and self.was_reached and gap <= UNSEEN
        seconds = self.seconds + (0.0 if is_seen else gap)
        return Missed(self.round, self.opens, max(now, self.until), seconds, is_reached)


@dataclasses.dataclass(frozen=True)
class Look:
    """One reading of the clock, what bidders missed of a window up to it, and what was read of the
    journal.
    """

    wall: float
    passed: float
    boot: str
    missed: Missed | None = None
    read: Read | None = None


class Watch:
    """Compares each look with the one before.

    The file of the last look is not synced. Without it nobody knows what bidders missed before.
    """

    def __init__(self, folders: Folders, clock: Clock) -> None:
        self.path, self.clock = folders.state / "look.json", clock
        self.before = self.last = self.stored()

    def stored(self) -> Look | None:
        try:
            value = stored.read(self.path)
            missed, read = value.pop("missed"), value.pop("read", None)
            return Look(**value, missed=missed and Missed(**missed), read=read and Read(*read))
        except (FileNotFoundError, ValueError, TypeError, KeyError):
            return None

    def look(self) -> Look:
        """Reads the clock."""
        self.before = self.last
        times = self.clock.wall(), self.clock.passed(), self.clock.boot()
        self.last = Look(*times)
        if self.before:
            self.last = Look(*times, self.before.missed, self.before.read)
        return self.last

    @property
    def now(self) -> float:
        """The time of day at the last look, by which everything in this look is decided."""
        return self.last.wall if self.last else self.clock.wall()

    def drift(self, window: Window) -> float:
        """By how many seconds the clock was set since a window was announced.

        While the machine was off nobody knows, but the time of day did not go back.
        """
        look, before = self.last or self.look(), self.before
        if window.boot == look.boot:
            return look.wall - look.passed - window.offset
        if before and before.boot != look.boot:
            return min(0.0, look.wall - before.wall)
        return 0.0

    def missed(self, number: int, window: Window, is_paused: bool, is_reached: bool) -> float:
        """Notes what bidders missed of a window up to now, and returns its share of the window."""
        look = self.last or self.look()
        missed = look.missed
        if missed is None or (missed.round, missed.opens) != (number, window.opens):
            missed = Missed(number, window.opens, window.opens)
        now = min(look.wall, window.closes)
        if is_paused:
            missed = dataclasses.replace(missed, until=max(now, missed.until))
        elif now >= window.opens:
            missed = missed.after(now, window.opened is not None, is_reached)
        self.last = dataclasses.replace(look, missed=missed)
        length = window.closes - window.opens
        return missed.seconds / length if length else 0.0

    def lost(self, journal: Journal, is_known: bool) -> bool:
        """Whether the journal lacks what was read in it before. Notes what it has, if it does not,
        or if that is known.
        """
        look = self.last or self.look()
        is_lost = look.read is not None and not journal.has(look.read)
        if is_known or not is_lost:
            self.last = dataclasses.replace(look, read=journal.read_up_to())
        return is_lost

    def store(self) -> None:
        if self.last:
            disk.show(self.path, json.dumps(dataclasses.asdict(self.last)), disk.PRIVATE)
