"""The operator's timetable: a file of days and windows becomes the windows of the rounds, in UTC
seconds.
"""
import dataclasses
import datetime
import json
import zoneinfo
from collections.abc import Iterator
from pathlib import Path
from typing import Any

from .clock import Clock
from .increments import Rule, rules_of
from .observed import TEN, whole_ten

MOST_WINDOWS = 1_000  # each bidder's page reads all of them
MOST_MINUTES = 1_440
YEARS = range(2000, 3000)  # so that a window can be put off, and still has a year of four digits
MOST_DAYS = 3_660
DAYS = ("Mon", "Tue", "Wed", "Thu", "Fri", "Sat", "Sun")


class TimetableFault(Exception):
    """What is wrong in a timetable, in words for the operator."""


@dataclasses.dataclass
class Window:
    """When a round opens and closes, in UTC seconds, and when it was opened in fact.

    `boot` names the start of the machine in which the window was announced last, and `offset` is
    what the time of day was then, less the time that had passed since that start.
    """

    opens: int
    closes: int
    opened: float | None = None
    boot: str = ""
    offset: float = 0.0

    def note_clock(self, clock: Clock) -> None:
        """Notes the clock by which bidders will measure this window."""
        self.boot, self.offset = clock.boot(), clock.wall() - clock.passed()


@dataclasses.dataclass(frozen=True)
class Timetable:
    """What a timetable file says. Without increments, those of the last one stay."""

    windows: list[Window]
    increments: list[Rule] | None


def read(path: Path) -> Timetable:
    """The timetable in a file."""
    try:
        document = json.loads(path.read_text(encoding="utf-8"))
    except (OSError, ValueError, RecursionError) as error:
        raise TimetableFault(f"{path}: {error}") from error
    known(document, "the timetable", {"days"}, {"zone", "increments"})
    zone = zone_of(document.get("zone", "UTC"))
    days = listed(document["days"], "days")
    windows = [
        window
        for place, day in enumerate(days)
        for window in windows_of(day, f"days[{place}]", zone)
    ]
    windows.sort(key=lambda window: window.opens)
    if not 1 <= len(windows) <= MOST_WINDOWS:
        raise TimetableFault(
            f"the timetable has {len(windows)} windows: it may have 1 to {MOST_WINDOWS}"
        )
    try:
        return Timetable(
            windows, rules_of(document["increments"]) if "increments" in document else None
        )
    except ValueError as error:
        raise TimetableFault(str(error)) from error


def known(value: Any, what: str, needed: set[str], optional: set[str]) -> None:
    """Refuses another kind of value, a missing key, and one that means nothing here."""
    if not isinstance(value, dict):
        raise TimetableFault(f"{what} must be an object")
    if missing := needed - value.keys():
        raise TimetableFault(f"{what} lacks {', '.join(sorted(missing))}")
    if strange := value.keys() - needed - optional:
        raise TimetableFault(f"{what} has an unknown key: {', '.join(sorted(strange))}")


def listed(value: Any, what: str) -> list[Any]:
    if not isinstance(value, list):
        raise TimetableFault(f"{what} must be a list")
    return value


def zone_of(name: Any) -> datetime.tzinfo:
    """A time zone by its name, such as America/New_York."""
    if name == "UTC":
        return datetime.timezone.utc
    try:
        return zoneinfo.ZoneInfo(name)
    except (zoneinfo.ZoneInfoNotFoundError, TypeError, ValueError) as error:
        raise TimetableFault(
            f"zone: {name!r} is unknown here (Debian's package tzdata has the zones)"
        ) from error


def windows_of(day: Any, where: str, zone: datetime.tzinfo) -> Iterator[Window]:
    """The windows of an entry: of one date, or of each date from one to another."""
    is_one = isinstance(day, dict) and "date" in day
    known(
        day,
        where,
        {"date", "windows"} if is_one else {"from", "to", "windows"},
        set() if is_one else {"weekdays", "except"},
    )
    times = [
        time
        for place, entry in enumerate(listed(day["windows"], f"{where}.windows"))
        for time in times_of(entry, f"{where}.windows[{place}]")
    ]
    for date in [date_of(day["date"], where)] if is_one else dates_of(day, where):
        for first, last in times:
            opens, closes = (seconds_of(date, time, where, zone) for time in (first, last))
            if opens >= closes:
                raise TimetableFault(f"{where}: {first} to {last} ends before it begins")
            yield Window(opens, closes)


def date_of(text: Any, where: str) -> datetime.date:
    try:
        date = datetime.date.fromisoformat(text)
    except (TypeError, ValueError) as error:
        raise TimetableFault(f"{where}: {text!r} is not a date such as 2026-12-01") from error
    if date.year not in YEARS:
        raise TimetableFault(f"{where}: the year of {text} is not {YEARS[0]} to {YEARS[-1]}")
    return date


def dates_of(day: dict[str, Any], where: str) -> Iterator[datetime.date]:
    """Each date from one to another, on some weekdays or all, but for some dates."""
    first, last = date_of(day["from"], where), date_of(day["to"], where)
    weekdays = listed(day.get("weekdays", list(DAYS)), f"{where}.weekdays")
    if strange := [name for name in weekdays if name not in DAYS]:
        raise TimetableFault(f"{where}.weekdays: {strange[0]!r} is not one of {', '.join(DAYS)}")
    left_out = {
        date_of(text, f"{where}.except")
        for text in listed(day.get("except", []), f"{where}.except")
    }
    if (last - first).days > MOST_DAYS:
        raise TimetableFault(f"{where}: {first} to {last} is more than {MOST_DAYS} days")
    for number in range((last - first).days + 1):
        date = first + datetime.timedelta(number)
        if DAYS[date.weekday()] in weekdays and date not in left_out:
            yield date


def times_of(entry: Any, where: str) -> list[tuple[datetime.time, datetime.time]]:
    """The local times of a window such as "10:00-11:00", or of a series of windows."""
    if isinstance(entry, str) and entry.count("-") == 1:
        first, last = (time_of(part.strip(), where) for part in entry.split("-"))
        return [(first, last)]
    known(entry, where, {"first", "minutes", "every", "count"}, set())
    length, every, count = (entry[key] for key in ("minutes", "every", "count"))
    if not all(type(number) is int and number > 0 for number in (length, every, count)):
        raise TimetableFault(f"{where}: minutes, every and count must be whole numbers above 0")
    if max(length, every, count) > MOST_MINUTES:
        raise TimetableFault(f"{where}: minutes, every and count are at most {MOST_MINUTES}")
    begin = datetime.datetime.combine(datetime.date(2000, 1, 1), time_of(entry["first"], where))
    starts = [begin + datetime.timedelta(minutes=every * number) for number in range(count)]
    ends = [start + datetime.timedelta(minutes=length) for start in starts]
    if ends[-1].date() != begin.date():
        raise TimetableFault(f"{where}: the last window ends after midnight")
    return [(start.time(), end.time()) for start, end in zip(starts, ends)]


def time_of(text: Any, where: str) -> datetime.time:
    try:
        time = datetime.time.fromisoformat(text)
    except (TypeError, ValueError) as error:
        raise TimetableFault(
            f"{where}: {text!r} is not a time such as 10:00 or 10:00:30"
        ) from error
    if time.tzinfo or time.microsecond or time.second % TEN:
        raise TimetableFault(f"{where}: {text} is not at a whole ten seconds")
    return time


def seconds_of(date: datetime.date, time: datetime.time, where: str, zone: datetime.tzinfo) -> int:
    """A local time in UTC seconds.

    One that the day lacks, or has twice, is refused: clocks are changed then.
    """
    local = datetime.datetime.combine(date, time, zone)
    both = {int(local.replace(fold=fold).timestamp()) for fold in (0, 1)}
    if len(both) > 1:
        raise TimetableFault(
            f"{where}: clocks are changed around {date} {time}, so this time is not one moment"
        )
    return both.pop()


Windows = dict[int, Window]


def replaced(
    old: Windows, begun: int, fresh: list[Window], now: float, gap: int, notice: int
) -> Windows:
    """The windows by round, once fresh ones have replaced those of the rounds after the last that
    has begun.

    Fresh windows that lie in the past are left out. What bidders expect soon stays: a window that
    begins within the notice time may be put off, and not be brought forward or shortened; one that
    is new begins after the notice time.
    """
    later = [dataclasses.replace(window) for window in fresh if window.opens > now]
    if not later:
        raise TimetableFault("all windows of the timetable are in the past")
    windows = {number: window for number, window in old.items() if number <= begun} | dict(
        enumerate(later, begun + 1)
    )
    for number in range(begun + 1, begun + len(later) + 1):
        check_gap(windows, number, gap)
        if number in old and old[number].opens < now + notice:
            check_promise(old[number], windows[number], number, notice)
        elif windows[number].opens < now + notice:
            raise TimetableFault(
                f"round {number} would open within the {notice} s of notice that conductor.json "
                "gives bidders"
            )
    return windows


def check_gaps(windows: list[Window], gap: int) -> None:
    """Each round opens some time after the one before has closed."""
    by_round = dict(enumerate(windows, 1))
    for number in by_round:
        check_gap(by_round, number, gap)


def check_gap(windows: Windows, number: int, gap: int) -> None:
    """A round opens some time after the one before has closed."""
    before, window = windows.get(number - 1), windows[number]
    if before and window.opens < before.closes + gap:
        raise TimetableFault(
            f"round {number} would open {window.opens - before.closes} s after round {number - 1} "
            f"closes, and the times in conductor.json need {gap} s between them"
        )


def check_promise(promised: Window, window: Window, number: int, notice: int) -> None:
    """A window that begins soon is not brought forward or shortened."""
    if (
        window.opens < promised.opens
        or window.closes - window.opens < promised.closes - promised.opens
    ):
        raise TimetableFault(
            f"round {number} is announced to open within {notice} s: it may be put off, and not "
            "brought forward or shortened"
        )


def move_later(windows: Windows, number: int, gap: int) -> None:
    """Moves the windows after a round as far as they must move to leave the time between."""
    while number in windows and number + 1 in windows:
        put_off(windows[number + 1], windows[number].closes + gap)
        number += 1


def put_off(window: Window, soonest: float) -> None:
    """Moves a window later by whole tens of seconds, so that it opens no sooner than this."""
    late = whole_ten(max(0.0, soonest - window.opens))
    window.opens, window.closes = window.opens + late, window.closes + late
