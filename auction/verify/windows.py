"""Checks of windows: rounds were closed after the windows that were announced, with sheets that
were taken in them.
"""
import datetime
from collections.abc import Iterator
from typing import Any, NamedTuple

from auction.formats import sent
from auction.formats.notices import TIME, Entry

from .announced import (
    LATE,
    by_hand,
    entries_of,
    first,
    frozen_of,
    is_between,
    last_before,
    of_kind,
    seconds_between,
)
from .case import Absent, Case, Failed


Window = dict[str, Any]
TIMETABLE = {"announcements", "ended", "paused", "round", "windows"}


def taken_faults(case: Case, entries: list[Entry]) -> list[str]:
    """The sheets that were taken out of their window, by the second that nginx wrote into each."""
    found, times = list[str](), [sent.taken_in(record.text) for record in case.records]
    number = 1
    for place, (record, taken) in enumerate(zip(case.records, times), 1):
        if record.text.startswith(b"POST "):
            number += 1
            continue
        if not taken:
            if any(times):
                found.append(f"request {place} has no time: it did not come through the window")
            continue
        opened, frozen = first(entries, "opened", number), frozen_of(entries, number)
        is_early = opened and taken < opened.says["opens"]
        is_shut = any(one.begin < taken < one.end for one in gaps(entries, number))
        if is_early or is_shut or (frozen and taken > frozen.time):
            found.append(f"request {place}: the sheet was taken at {taken}, out of its window")
    return found


class Gap(NamedTuple):
    """A time in which a round took no sheets, from when on none was on its way."""

    begin: str
    end: str


def gaps(entries: list[Entry], number: int) -> Iterator[Gap]:
    """The times between two windows of a round, which a pause or the end of the first began."""
    opened = of_kind(entries, "opened", number)
    for one, other in zip(opened, opened[1:]):
        between = entries[one.number : other.number - 1]
        known = [window_of(entries, number, entry) for entry in (one, *between)]
        ends = [
            window["closes"] for window in known if window and window["opens"] < opens_of(other)
        ]
        pauses = [act.time for act in of_kind(between, "act") if act.says["what"] == "pause"]
        if begins := [*ends[-1:], *pauses]:
            yield Gap(later(min(begins), LATE), opens_of(other))


def open_round(entries: list[Entry], time: str) -> int | None:
    """The round whose window was open at this time, as the notices say, or None."""
    for opened in of_kind(entries, "opened"):
        number = opened.says["round"]
        rest = [one for one in entries[opened.number :] if one.says.get("round") == number]
        after = next((one for one in rest if one.kind in ("opened", "frozen")), None)
        if after is None:
            continue
        between = of_kind(entries[opened.number : after.number - 1], "act")
        ends = [one.time for one in between if one.says["what"] in ("pause", "close")]
        window = window_of(entries, number, opened) if after.kind == "opened" else None
        window = window or window_of(entries, number, after)
        ends += [window["closes"]] if window else []
        if ends and opened.time < time < min(ends):
            return int(number)
    return None


def opens_of(opened: Entry) -> str:
    return str(opened.says["opens"])


def later(time: str, seconds: int) -> str:
    """The time that is `seconds` after another one."""
    moment = datetime.datetime.strptime(time, TIME) + datetime.timedelta(seconds=seconds)
    return moment.strftime(TIME)


def window_of(entries: list[Entry], number: int, entry: Entry) -> Window | None:
    """The window of a round in the last timetable before a notice."""
    timetable = last_before(entries, "timetable", entry)
    windows = timetable.says["windows"] if timetable else []
    return next((one for one in windows if one["round"] == number), None)


def check_windows(case: Case) -> str:
    """Compares the times of each round with the timetable that was announced."""
    entries = entries_of(case)
    count = len(case.closings)
    if not of_kind(entries, "timetable"):
        raise Absent("no notice has a timetable, so nothing shows the windows of rounds")
    faults = [fault for entry in entries for fault in opening_faults(entries, entry)]
    for number in range(1, count + 1):
        faults += window_faults(entries, number)
    faults += published_faults(case, entries) + timetable_faults(case, entries)
    faults += taken_faults(case, entries)
    if faults:
        raise Failed(*faults)
    late = [words for number in range(1, count + 1) for words in late_words(entries, number)]
    if not any(sent.taken_in(record.text) for record in case.records):
        late.append("NO TIMES: no sheet says when it was taken, so nothing shows a late one")
    return "; ".join([f"{count} rounds were closed after the windows that were announced", *late])


def opening_faults(entries: list[Entry], entry: Entry) -> Iterator[str]:
    """What is wrong in a notice that a window has opened."""
    if entry.kind != "opened":
        return
    number = entry.says["round"]
    window = window_of(entries, number, entry)
    if window is None:
        yield f"round {number} has opened, and the timetable of before has no window of it"
    elif window["opens"] != entry.says["opens"]:
        yield (
            f"round {number} has opened at {entry.says['opens']}, and by the timetable of before "
            f"its window opens at {window['opens']}"
        )
    elif not window["opens"] <= entry.time <= window["closes"]:
        yield f"round {number} has opened at {entry.time}, out of its window"


def window_faults(entries: list[Entry], number: int) -> Iterator[str]:
    """Whether a round had a window, which nobody shortened, and that was over when it was frozen.

    Without its freezing, another check fails. A person may close a round, and notices say so.
    """
    opened, frozen = first(entries, "opened", number), frozen_of(entries, number)
    if by_hand(entries, number):
        return
    if opened is None:
        yield f"no notice says that the window of round {number} has opened"
    if frozen is None:
        return
    window = window_of(entries, number, frozen)
    if window is None:
        yield f"round {number} is closed, and no timetable of before has a window of it"
    elif frozen.time < window["closes"]:
        yield (
            f"round {number} was frozen at {frozen.time}, before the end of its window at "
            f"{window['closes']}"
        )
    elif opened and shortened(entries, number, opened, frozen):
        yield f"round {number}: its window was shortened while it was open"


def shortened(entries: list[Entry], number: int, opened: Entry, frozen: Entry) -> bool:
    """Whether a timetable brought the end of an open window forward."""
    known = [opened, *(one for one in entries[opened.number : frozen.number - 1]), frozen]
    windows = [window_of(entries, number, entry) for entry in known]
    ends = [window["closes"] for window in windows if window]
    return ends != sorted(ends)


def late_words(entries: list[Entry], number: int) -> Iterator[str]:
    """Words for a round that a person closed, that opened or was frozen twice, or that was frozen
    or lengthened long after its window.
    """
    frozen, act = frozen_of(entries, number), by_hand(entries, number)
    window = window_of(entries, number, frozen) if frozen else None
    if act:
        yield f"BY HAND: {act.says['who']} closed round {number}, whatever its window was"
    if (count := len(of_kind(entries, "frozen", number))) > 1:
        yield f"AGAIN: the sheets of round {number} were frozen {count} times"
    if (count := len(of_kind(entries, "opened", number))) > 1:
        yield f"AGAIN: the window of round {number} opened {count} times"
    for one in of_kind(entries, "opened", number):
        if (told := announced_late(entries, number, one)) is not None:
            words = f"was announced at {told.time}, once it was open"
            yield f"LATE: the window of round {number} {words}"
    for told in lengthened(entries, number):
        yield f"LATE: the window of round {number} was lengthened at {told.time}, after its end"
    if frozen and window and (late := seconds_between(window["closes"], frozen.time)) > LATE:
        yield (
            f"LATE: round {number} was frozen {late} s after its window's end, and until then the "
            "operator could take a sheet"
        )


def announced_late(entries: list[Entry], number: int, opened: Entry) -> Entry | None:
    """The timetable that announced the window of an opening, if that was long after it opened."""
    told = [
        entry
        for entry in of_kind(entries[: opened.number - 1], "timetable")
        for window in entry.says["windows"]
        if (window["round"], window["opens"]) == (number, opened.says["opens"])
    ]
    is_late = told and seconds_between(opened.says["opens"], told[0].time) > LATE
    return told[0] if is_late else None


def lengthened(entries: list[Entry], number: int) -> Iterator[Entry]:
    """The timetables that gave a window a later end long after it had ended. One that opens after
    that end is another window.
    """
    before: Window | None = None
    for entry in of_kind(entries, "timetable"):
        window = next((one for one in entry.says["windows"] if one["round"] == number), None)
        if before and window and window["opens"] < before["closes"] < window["closes"]:
            if seconds_between(before["closes"], entry.time) > LATE:
                yield entry
        before = window


def published_faults(case: Case, entries: list[Entry]) -> list[str]:
    """The published rounds whose page has a false time."""
    found = []
    for number, page in case.rounds.items():
        entry = first(entries, "published", number)
        if entry and "published" in page and not is_between(page["published"], entries, entry):
            found.append(
                f"rounds/{number}.json says that it was published at {page['published']}, and by "
                f"the notices that was at {entry.time}"
            )
    return found


def timetable_faults(case: Case, entries: list[Entry]) -> list[str]:
    """Whether timetable.json is one that was announced; in a record, the last one at its end."""
    if not (case.published / "timetable.json").is_file():
        return []
    shown, told = case.json("timetable.json"), of_kind(entries, "timetable")
    mark = {"mock"} if case.is_mock else set()
    if shown.keys() != TIMETABLE | mark or (mark and shown["mock"] is not True):
        return ["timetable.json has other parts than a timetable"]
    faults = []
    windows = [one for one in shown["windows"] if one["opens"] < one["closes"]]
    known = [entry.says["windows"] for entry in told[-1 if case.is_record else 0 :]]
    if windows not in known and (windows or case.is_record):  # there are none at first
        faults.append("timetable.json has other windows than were announced")
    state = shown["round"], shown["ended"], shown["announcements"]
    said = len(of_kind(entries, "announcement"))
    if state not in states_of(case, said):
        faults.append("timetable.json has a round, an end, or announcements that never were")
    if shown["paused"] is not None and not is_pause(entries, shown["paused"]):
        faults.append("timetable.json has a pause that was not announced")
    if case.is_record and case.counted.auction.ended and shown["paused"] is not None:
        faults.append("timetable.json is not that of the end of the auction")
    return faults


def states_of(case: Case, said: int) -> set[tuple[int, bool, int]]:
    """The round, the end, and the number of announcements that a timetable may have shown.

    Each of them at some time, and in a record those of its end.
    """
    count, ended = len(case.closings), case.counted.auction.ended
    last = (count, True) if ended else (count + 1, False)
    if case.is_record:
        return {(*last, said)}
    before = [(number, False) for number in range(1, count + 1)]
    return {(*one, many) for one in (*before, last) for many in range(said + 1)}


def is_pause(entries: list[Entry], words: str) -> bool:
    """Whether a pause was announced with these words."""
    texts = [one.says["text"] for one in of_kind(entries, "announcement")]
    return any(text.endswith(f"The auction is paused. {words}") for text in texts)


CHECKS = [("windows", check_windows)]
