"""The acts of the desk: each is one of the commands of `auction`, by the same function."""
import contextlib
import dataclasses
import math
from collections.abc import Callable, Iterator
from typing import Any

from auction.conductor import commands, disk, timetable
from auction.conductor.clock import utc
from auction.conductor.commands import Closing, CommandFault
from auction.conductor.context import Context
from auction.conductor.increments import LEAST, MOST
from auction.conductor.observed import Reason
from auction.conductor.plan import Plan
from auction.conductor.timetable import TimetableFault

LONGEST = 1_000  # letters of an announcement, or of why the auction is paused
MOST_BYTES = 1_048_576  # of a timetable


class BadRequest(ValueError):
    """What is wrong in a request of a page."""


class Stale(Exception):
    """The auction has changed since the page was shown."""


class Guarded(Context):
    """A context whose changes are refused if the auction is not as the page showed it.

    The guard looks once nobody else can change the plan any more.
    """

    guard: Callable[[Plan], None] = staticmethod(lambda plan: None)

    @contextlib.contextmanager
    def changing(self) -> Iterator[Plan]:
        with super().changing() as plan:
            self.guard(plan)
            yield plan


@dataclasses.dataclass(frozen=True)
class Given:
    """What an act is given, besides the round: each act needs its own parts of it."""

    words: str = ""
    minutes: float = 0.0
    timetable: str = ""
    increments: tuple[int, ...] = ()
    without_sheets: bool = False
    no_ties: bool = False

    @classmethod
    def of(cls, act: str, value: Any) -> "Given":
        """The parts that a request gives to an act. A BadRequest says what is wrong."""
        if act not in PARTS:
            raise BadRequest("there is no such act")
        if not isinstance(value, dict) or value.keys() != PARTS[act]:
            raise BadRequest(f"an act {act} is given {', '.join(sorted(PARTS[act])) or 'nothing'}")
        checks: dict[str, Callable[[Any], Any]] = {
            "words": checked_words,
            "minutes": checked_minutes,
            "timetable": checked_text,
            "increments": checked_increments,
        }
        return cls(**{name: checks.get(name, checked_flag)(one) for name, one in value.items()})


PARTS = {
    "pause": {"words"},
    "resume": {"minutes"},
    "extend": {"minutes"},
    "announce": {"words"},
    "plan": {"timetable"},
    "next": {"without_sheets", "no_ties"},
    "close": {"increments", "without_sheets"},
    "winners": set[str](),
}


def checked_words(value: Any) -> str:
    """Words for everyone: one line that can be printed."""
    if not isinstance(value, str) or not 0 < len(value.strip()) <= LONGEST:
        raise BadRequest(f"words must have 1 to {LONGEST} letters")
    if not value.isprintable():
        raise BadRequest("words must be one line that can be printed")
    return value.strip()


def checked_minutes(value: Any) -> float:
    if type(value) not in (int, float) or not math.isfinite(value):
        raise BadRequest("minutes must be a number")
    return float(value)


def checked_text(value: Any) -> str:
    if not isinstance(value, str) or len(value.encode()) > MOST_BYTES:
        raise BadRequest(f"a timetable is a text of at most {MOST_BYTES:,} bytes")
    return value


def checked_increments(value: Any) -> tuple[int, ...]:
    """Increments, one for all products or one for each. The first wrong one is named."""
    if not isinstance(value, list) or not value:
        raise BadRequest("increments are a list of numbers")
    for place, percent in enumerate(value):
        if type(percent) is not int or not LEAST <= percent <= MOST:
            raise BadRequest(f"increment {place + 1} is not a whole number, {LEAST} to {MOST}")
    return tuple(value)


def checked_flag(value: Any) -> bool:
    if type(value) is not bool:
        raise BadRequest("a choice is true or false")
    return value


# ---- What each act does


def carry_out(context: Context, act: str, number: int, given: Given) -> None:
    """Does an act. CommandFault, TimetableFault, or BadRequest if it changes nothing."""
    if act == "pause":
        commands.pause(context, given.words)
    elif act == "resume":
        commands.resume(context, given.minutes)
    elif act == "extend":
        commands.extend(context, given.minutes)
    elif act == "announce":
        commands.announce(context, given.words)
    elif act == "plan":
        plan(context, given.timetable)
    elif act == "next":
        commands.close_next(context, number, given.without_sheets, given.no_ties)
    elif act == "close":
        close_early(context, number, given)
    else:
        commands.winners(context)


def plan(context: Context, text: str) -> None:
    """Takes the timetable that is this text."""
    with timetable_file(context, text) as file:
        commands.plan(context, file)


@contextlib.contextmanager
def timetable_file(context: Context, text: str) -> Iterator[Any]:
    """A file with the text of a timetable. A fault names the timetable, and not this file."""
    file = context.folders.state / "desk-timetable.json"
    disk.show(file, text, disk.PRIVATE)
    try:
        yield file
    except TimetableFault as fault:
        raise TimetableFault(str(fault).replace(str(file), "the timetable")) from None
    finally:
        disk.unlink(file)


def windows_in(context: Context, text: str) -> list[dict[str, Any]]:
    """The windows of a timetable, for a look before it is taken. A TimetableFault says why not."""
    with timetable_file(context, text) as file:
        windows = timetable.read(file).windows
        timetable.check_gaps(windows, context.settings.gap)
    return [{"opens": utc(window.opens), "closes": utc(window.closes)} for window in windows]


def close_early(context: Context, number: int, given: Given) -> None:
    """Ends the window of the current round now, to close it with these increments."""
    count = len(given.increments)
    products = len(context.setup.products)
    if count not in ({1} if context.setup.version == 1 else {1, products}):
        raise BadRequest(f"there are {count} increments: give one for all, or one for each product")
    with context.changing() as changed:
        if commands.current(context) != number:
            raise CommandFault(f"round {number} is closed already")
        if number != context.public.published() + 1:
            raise CommandFault(f"the results of round {number - 1} are not published yet")
        if context.auction.body_file(number).exists():
            raise CommandFault(f"the closing of round {number} is fixed, and may have been sent")
        context.journal.read_on()
        if not context.journal.sheets and not given.without_sheets:
            raise CommandFault(f"{Reason.NO_SHEETS.value}: confirm that you know")
        asked = Closing(number, list(given.increments), given.without_sheets)
        context.note(changed, "close", number)
        commands.end_early(context, changed, asked)


def words_of(act: str, number: int, given: Given) -> str:
    """An act in words, for the question to a second person and for the list of acts."""
    minutes = f"{given.minutes:g} minutes"
    percents = sorted(set(given.increments))
    rise = f"{percents[0]} to {percents[-1]}" if len(percents) > 1 else f"{(percents or [0])[0]}"
    without = ", though nobody has submitted bids" if given.without_sheets else ""
    ties = ", without tie-breaking numbers" if given.no_ties else ""
    return {
        "pause": f"pause: {given.words}",
        "resume": f"continue in {minutes}",
        "extend": f"give round {number} {minutes} more",
        "announce": f"announce: {given.words}",
        "plan": "take a new timetable",
        "next": f"close round {number}, which waits for a word{without}{ties}",
        "close": f"close round {number} early, with {rise} percent{without}",
        "winners": "publish what each bidder has won",
    }[act]
