"""Checks of the notices: that they are one chain, that each round was frozen, closed, and published
as they say, and that announcements are those that the operator signed.
"""
import hashlib
from collections.abc import Iterator
from typing import Any, NamedTuple

from auction.formats import notices
from auction.formats.notices import Entry

from .case import Absent, Case, Failed

LATE = 60  # seconds between a window's end and its freezing, beyond which the line names the round
ONCE = ("frozen", "closed", "published", "ended")
BEGUN = ("opened", "frozen", "closed")  # notices of a round whose sheets may be known
AGAIN = ("timetable", "opened", "act")  # after these, a round may be frozen again
FREEZING = ("next", "extend", "resume", "close")  # the acts after which it may
LACKING = (
    "there are none, so nothing shows what was announced, nor whether a sheet came in after its "
    "window"
)


def entries_of(case: Case) -> list[Entry]:
    """The notices. Raises Absent if there are none, or if they are no chain: that fails once."""
    if not has_notices(case):
        raise Absent("there are no notices")
    try:
        return case.entries
    except notices.NoticesFault as fault:
        raise Absent("the notices are no chain") from fault


def has_notices(case: Case) -> bool:
    return (case.published / notices.NAME).is_file()


def known_entries(case: Case) -> list[Entry]:
    """The notices, or nothing if there are none or they are no chain."""
    try:
        return entries_of(case)
    except Absent:
        return []


def of_kind(entries: list[Entry], kind: str, number: int | None = None) -> list[Entry]:
    """The notices of a kind, and of a round if one is given."""
    return [
        entry
        for entry in entries
        if entry.kind == kind and number in (None, entry.says.get("round"))
    ]


def first(entries: list[Entry], kind: str, number: int) -> Entry | None:
    return next(iter(of_kind(entries, kind, number)), None)


def frozen_of(entries: list[Entry], number: int) -> Entry | None:
    """The notice that froze a round's sheets; the last one, if its window opened again."""
    return next(reversed(of_kind(entries, "frozen", number)), None)


def by_hand(entries: list[Entry], number: int) -> Entry | None:
    """The notice that a person closes a round, if one did. One of after its closing is none."""
    closed = first(entries, "closed", number)
    acts = of_kind(entries[: closed.number] if closed else entries, "act", number)
    return next((one for one in acts if one.says["what"] == "close"), None)


def closing_said(case: Case, number: int) -> str | None:
    """The digest of a closing that the operator signed, if there are notices."""
    closed = first(known_entries(case), "closed", number)
    return closed.says["digest"] if closed else None


def last_before(entries: list[Entry], kind: str, entry: Entry) -> Entry | None:
    """The last notice of a kind before another notice."""
    found = [one for one in entries[: entry.number - 1] if one.kind == kind]
    return found[-1] if found else None


def seconds_between(one: str, other: str) -> int:
    """The seconds from one time to another."""
    return notices.seconds_of(other) - notices.seconds_of(one)


# ---- The chain, and other copies of it


def check_chain(case: Case) -> str:
    """Checks that the notices are one chain, which the committed key signed."""
    if not has_notices(case):
        raise Absent(LACKING)
    try:
        entries = case.entries
    except notices.NoticesFault as fault:
        raise Failed(f"{notices.NAME}, {fault}") from fault
    if not entries:
        raise Absent(LACKING)
    digest = hashlib.sha256(entries[-1].line()).hexdigest()
    return (
        f"{len(entries)} notices are one chain from the commitment on, each signed by its key; the "
        f"last is of {entries[-1].time}, and its SHA-256 is {digest}"
    )


def check_copies(case: Case) -> str:
    """Compares the notices with copies that others saved."""
    if not case.copies:
        raise Absent(
            "no copy of the notices is given, so nothing shows whether others were shown the same"
        )
    file = case.published / notices.NAME
    text = file.read_bytes() if file.is_file() else b""
    said, faults = list[str](), list[str]()
    for path in case.copies:
        try:
            found = notices.compared(text, path.read_bytes(), case.commitment_text())
        except notices.NoticesFault as fault:
            raise Failed(f"{notices.NAME}, {fault}") from fault
        is_fault = found.result in (notices.TWO_CHAINS, notices.LONGER)
        (faults if is_fault else said).append(f"{path.name}: {found.words}")
    if faults:
        raise Failed(*faults)
    return "; ".join(said)


# ---- Rounds


class Journal(NamedTuple):
    """What the journal has of each closing: the digests before and after it, and its increments."""

    frozen: list[str]
    closed: list[str]
    increments: list[list[int]]


def journal_of(case: Case) -> Journal:
    """What the notices must say of the closings in the journal."""
    before = [case.setup_digest, *(record.digest for record in case.records)]
    frozen = [
        digest for digest, record in zip(before, case.records) if record.text.startswith(b"POST ")
    ]
    increments = [closed.increments for closed in case.counted.auction.rounds]
    return Journal(frozen, case.closings, increments)


def check_rounds(case: Case) -> str:
    """Checks that each round was frozen, closed, and published as its notices say."""
    entries, journal = entries_of(case), journal_of(case)
    count = len(journal.closed)
    faults = [*repeated(entries), *strange(entries, count)]
    for number in range(1, count + 1):
        faults += round_faults(entries, journal, number)
        if number in case.rounds and not of_kind(entries, "published", number):
            faults.append(f"round {number} is published, and no notice says so")
    ended = of_kind(entries, "ended")
    if any(entry.says["round"] != count or not case.counted.auction.ended for entry in ended):
        faults.append("a notice says that the auction has ended, and by the journal it has not")
    elif case.counted.auction.ended and not ended:
        faults.append("the auction has ended, and no notice says so: the end of the file is cut")
    if faults:
        raise Failed(*faults)
    if not count:
        raise Absent("no round is closed")
    return (
        f"the journal was frozen before each of {count} closings, and each closing is the very "
        "next request"
    )


def repeated(entries: list[Entry]) -> Iterator[str]:
    """What may be said once of a round, and was said twice with another meaning."""
    said: dict[tuple[str, int], Any] = {}
    for entry in entries:
        if entry.kind in AGAIN and entry.says.get("what", FREEZING[0]) in FREEZING:
            said = {key: says for key, says in said.items() if key[0] != "frozen"}
        if entry.kind in ONCE:
            key = (entry.kind, entry.says["round"])
            if said.setdefault(key, entry.says) != entry.says:
                yield f"notice {entry.number}: round {key[1]} is {key[0]} for the second time"


def strange(entries: list[Entry], count: int) -> Iterator[str]:
    """What is said of a round that the journal does not have."""
    for entry in entries:
        if entry.kind in ONCE and entry.says["round"] > count + (entry.kind == "frozen"):
            yield (
                f"notice {entry.number}: round {entry.says['round']} is {entry.kind}, and the "
                "journal has no closing of it"
            )


def round_faults(entries: list[Entry], journal: Journal, number: int) -> Iterator[str]:
    """What is wrong in the notices of a closed round."""
    frozen, closed = frozen_of(entries, number), first(entries, "closed", number)
    if frozen is None:
        yield f"round {number} is closed, and no notice froze its sheets before"
    elif frozen.says["digest"] != journal.frozen[number - 1]:
        yield (
            f"round {number} was frozen at {frozen.time} with another journal than the one that "
            "its closing follows: a sheet was put in, left out, or changed after that"
        )
    if closed is None:
        yield f"round {number} is closed, and no notice says so"
    elif closed.says["digest"] != journal.closed[number - 1]:
        yield f"round {number}: its notice has another digest than the journal"
    elif not is_increment(closed.says["increment"], journal.increments[number - 1 :][:1]):
        yield f"round {number}: its notice has another increment than the journal"
    steps = [*(of_kind(entries, "opened", number)[-1:]), frozen, closed]
    steps += [first(entries, "published", number), first(entries, "opened", number + 1)]
    places = [entry.number for entry in steps if entry is not None]
    if places != sorted(places):
        yield f"round {number}: its notices are not in the order opened, frozen, closed, published"


def is_increment(said: Any, found: list[list[int]]) -> bool:
    """Whether a notice has the increments of a closing, if the rules accept it."""
    return not found or (said if isinstance(said, list) else [said] * len(found[0])) == found[0]


# ---- Announcements, and the draw


def is_between(time: str, entries: list[Entry], entry: Entry) -> bool:
    """Whether a time in a published file fits its notice: it lies between the ones around it.

    A crash may come between the file and its notice. Notices of one second are written together.
    """
    earlier = [one for one in entries if one.time < entry.time] or [entry]
    after = entries[entry.number :] or [entry]
    is_early = seconds_between(earlier[-1].time, time) < -LATE
    return not is_early and seconds_between(time, after[0].time) >= -LATE


def announcements_in(case: Case) -> list[Entry]:
    """The announcements among the notices, if there are any."""
    return of_kind(known_entries(case), "announcement")


def announcement_faults(case: Case, made: list[dict[str, Any]]) -> list[str]:
    """Compares announcements.json with the notices, if there are any."""
    entries = known_entries(case)
    if not entries:
        return []
    told = of_kind(entries, "announcement")
    common = list(zip(made, told))
    faults = [
        f"announcement {one['number']} is another one than the operator signed"
        for one, entry in common
        if (one["key"], one["text"]) != (entry.says["key"], entry.says["text"])
    ]
    faults += [
        f"announcement {one['number']} says {one['time']}, and its notice is of {entry.time}"
        for one, entry in common
        if not is_between(one["time"], entries, entry)
    ]
    if len(made) > len(told) or (case.is_record and len(made) < len(told)):
        faults.append(f"there are {len(made)} announcements, and notices of {len(told)}")
    return faults


def draw_faults(case: Case, words: str) -> list[str]:
    """Whether a draw was announced with these words, before the first window opened.

    Without a window, it must come before a person closes round 1.
    """
    entries = known_entries(case)
    told = of_kind(entries, "draw")
    begun = next((one for one in entries if one.kind in BEGUN or by_hand([one], 1)), None)
    if entries and not told:
        return ["no notice has the result of the draw"]
    faults = []
    if any(entry.says["words"] != words for entry in told):
        faults.append("the notices have another result of the draw")
    if begun and told[0].number > begun.number:
        faults.append(f"the draw is of {told[0].time}, after round 1 began at {begun.time}")
    return faults


CHECKS = [
    ("notices", check_chain),
    ("copies", check_copies),
    ("rounds", check_rounds),
]
