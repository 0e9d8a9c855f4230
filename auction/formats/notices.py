"""Notices: what the operator says to everyone, as one chain that the key of receipts signs.

A public file, notices.jsonl, has an entry in each line (docs/formats.md). Each has the digest of
the line before, and the first one the digest of commitment.json. So nobody can change, move, or
leave out an entry that is followed by another, and only the operator can add one.
"""
import dataclasses
import datetime
import hashlib
import io
import json
import re
from collections.abc import Callable
from pathlib import Path
from typing import Any, NamedTuple

from auction.mock import kind_in, mark_of

from .signatures import SIGNATURE, is_signed, sign
from .strict import value_in
from .ties import Commitment, bytes_of, checked_draw, has_keys

NAME = "notices.jsonl"
TITLE = b"clock_auction notice 1\n"
KEYS = ("before", "kind", "number", "says", "signature", "time")
TIME = "%Y-%m-%dT%H:%M:%SZ"
DIGEST = 32  # bytes
MOST_PERCENT = 50
ANNOUNCED = re.compile("[A-Za-z0-9_.-]{1,64}")  # the key of an announcement


class NoticesFault(ValueError):
    """What is wrong in a file of notices, and at which line."""


@dataclasses.dataclass(frozen=True)
class Entry:
    """A notice. `before` is the SHA-256 of the line before, in hexadecimal.

    `mock` says that it is of a mock auction.
    """

    before: str
    kind: str
    number: int
    says: dict[str, Any]
    time: str
    signature: bytes = b""
    mock: bool = False

    def value(self) -> dict[str, Any]:
        """The JSON value of the line."""
        value = {**dataclasses.asdict(self), "signature": self.signature.hex()}
        del value["mock"]
        return {**value, **mark_of(self.mock)}

    def line(self) -> bytes:
        """The line of the file, with its end."""
        return canonical(self.value())


class Compared(NamedTuple):
    """What two copies of the notices are to each other, and what that proves, in words."""

    result: str
    words: str


SAME, SHORTER, LONGER, UNPROVED, TWO_CHAINS = (
    *("same", "shorter", "longer"),
    *("unproved", "two chains"),
)


def canonical(value: Any) -> bytes:
    """The only text of a value that is valid: sorted keys, no spaces, ASCII, and a line's end."""
    return (json.dumps(value, sort_keys=True, separators=(",", ":")) + "\n").encode("ascii")


def message(entry: Entry) -> bytes:
    """The signed bytes."""
    value = entry.value()
    del value["signature"]
    return TITLE + canonical(value)


# ---- What each kind says


def checked_time(value: Any) -> str:
    """A time of day in UTC seconds, such as 2026-11-30T13:00:00Z."""
    if not isinstance(value, str) or len(value) != 20:
        raise ValueError(f"{value!r} is no time")
    if datetime.datetime.strptime(value, TIME).strftime(TIME) != value:
        raise ValueError(f"{value!r} is no time")
    return value


def seconds_of(time: str) -> int:
    """A time in seconds since 1970."""
    moment = datetime.datetime.strptime(time, TIME)
    return int(moment.replace(tzinfo=datetime.timezone.utc).timestamp())


def checked_round(value: Any) -> None:
    if type(value) is not int or value < 1:
        raise ValueError(f"{value!r} is no round")


def checked_digest(value: Any) -> None:
    bytes_of(value, DIGEST)


def checked_text(value: Any) -> None:
    if not isinstance(value, str) or not value:
        raise ValueError("a text must not be empty")


def checked_key(value: Any) -> None:
    if not isinstance(value, str) or not ANNOUNCED.fullmatch(value):
        raise ValueError(f"{value!r} is no key of an announcement")


def checked_words(value: Any) -> None:
    if not checked_draw(value):
        raise ValueError("a draw has words")


def checked_percents(value: Any) -> None:
    """The increment of a closing: one, or one for each product."""
    for percent in value if isinstance(value, list) and value else [value]:
        if type(percent) is not int or not 1 <= percent <= MOST_PERCENT:
            raise ValueError(f"{percent!r} is no increment")


def checked_rules(value: Any) -> None:
    """The rules of increments, as the timetable's file has them."""
    if not isinstance(value, list) or not value:
        raise ValueError("increments are a list of rules")
    for place, rule in enumerate(value):
        if not isinstance(rule, dict) or not {"percent"} <= rule.keys() <= {
            *("excess", "percent", "until")
        }:
            raise ValueError(f"rule {place + 1} has other parts than percent, until, and excess")
        if any(type(number) is not int or number < 1 for number in rule.values()):
            raise ValueError(f"rule {place + 1} has another number than a whole one above 0")
        if (len(rule) == 1) != (place == len(value) - 1):
            raise ValueError("exactly the last rule must apply always")


def checked_windows(value: Any) -> None:
    """Windows of rounds, in order. Each ends after it begins."""
    if not isinstance(value, list):
        raise ValueError("windows are a list")
    before = 0
    for window in value:
        has_keys(window, "closes", "opens", "round")
        checked_round(window["round"])
        if window["round"] <= before:
            raise ValueError("windows must be in the order of their rounds")
        if checked_time(window["opens"]) >= checked_time(window["closes"]):
            raise ValueError(f"the window of round {window['round']} ends before it begins")
        before = window["round"]


Checks = dict[str, Callable[[Any], Any]]
KINDS: dict[str, Checks] = {
    "timetable": {"windows": checked_windows},
    "announcement": {"key": checked_key, "text": checked_text},
    "increments": {"rules": checked_rules},
    "draw": {"words": checked_words},
    "opened": {"round": checked_round, "opens": checked_time},
    "frozen": {"round": checked_round, "digest": checked_digest},
    "closed": {
        "round": checked_round,
        "digest": checked_digest,
        "increment": checked_percents,
    },
    "published": {"round": checked_round},
    "act": {"what": checked_text, "who": checked_text, "round": checked_round},
    "ended": {"round": checked_round},
}
MAY_LACK = {("act", "round")}


def check_says(kind: Any, says: Any) -> None:
    """Raises ValueError unless these are the parts of a notice of this kind."""
    if not isinstance(kind, str) or kind not in KINDS:
        raise ValueError(f"{kind!r} is no kind of notice")
    if not isinstance(says, dict):
        raise ValueError(f"what a notice of kind {kind} says is no object")
    parts = {name for name in KINDS[kind] if name in says or (kind, name) not in MAY_LACK}
    has_keys(says, *sorted(parts))
    for name, value in says.items():
        KINDS[kind][name](value)


# ---- Writing


def appended(
    text: bytes, commitment: bytes, secret: bytes, kind: str, says: dict[str, Any], time: str
) -> bytes:
    """The file with one more entry, signed by the secret key in PEM.

    `text` is the file as it is, or nothing, and `commitment` the bytes of commitment.json. The
    entry's time is that of the entry before if this one is earlier: somebody set the clock.
    Raises ValueError for what a reader would refuse.
    """
    lines = lines_of(text)
    if not lines:
        is_mock = commitment_of(commitment).mock
        first = Entry(digest_of(commitment), kind, 1, says, time, mock=is_mock)
        return signed(first, secret).line()
    last = entry_in(lines[-1])
    later = max(checked_time(time), last.time)
    entry = Entry(digest_of(lines[-1]), kind, last.number + 1, says, later, mock=last.mock)
    return text + signed(entry, secret).line()


def signed(entry: Entry, secret: bytes) -> Entry:
    """The entry with its signature, if a reader takes it."""
    check_says(entry.kind, entry.says)
    checked_time(entry.time)
    return dataclasses.replace(entry, signature=sign(secret, message(entry)))


# ---- Reading


def digest_of(data: bytes) -> str:
    return hashlib.sha256(data).hexdigest()


def lines_of(text: bytes) -> list[bytes]:
    """The lines of a file, each with its end. The last one may be cut."""
    return io.BytesIO(text).readlines()


def read_notices(path: Path, commitment: bytes) -> list[Entry]:
    """The entries of a file, after the commitment with these bytes.

    Raises NoticesFault, which names the line, unless all of them are one chain of this operator.
    """
    try:
        return notices_in(path.read_bytes(), commitment)
    except (OSError, NoticesFault) as error:
        raise NoticesFault(f"{path}: {error}") from error


def notices_in(text: bytes, commitment: bytes) -> list[Entry]:
    """The entries of the bytes of a file."""
    fixed = commitment_of(commitment)
    entries, before = list[Entry](), digest_of(commitment)
    for number, line in enumerate(lines_of(text), 1):
        entry = checked_entry(line, number, before, fixed)
        if entries and entry.time < entries[-1].time:
            raise NoticesFault(f"line {number}: it has an earlier time than the line before")
        entries.append(entry)
        before = digest_of(line)
    return entries


def commitment_of(text: bytes) -> Commitment:
    """The commitment in the bytes of commitment.json."""
    try:
        return Commitment.of(value_in(text))
    except ValueError as error:
        raise NoticesFault(f"there is no commitment: {error}") from error


def checked_entry(line: bytes, number: int, before: str, commitment: Commitment) -> Entry:
    """The entry of a line, which must be this number, follow the line before, and be signed.

    It must be of the commitment's kind of auction, which is said first.
    """
    where = f"line {number}"
    try:
        entry = entry_in(line)
    except (ValueError, RecursionError) as error:
        raise NoticesFault(f"{where}: {error}") from error
    if entry.mock != commitment.mock:
        kinds = kind_in(entry.mock).value, kind_in(commitment.mock).value
        raise NoticesFault(f"{where}: it is of {kinds[0]}, and the commitment is of {kinds[1]}")
    if entry.number != number:
        raise NoticesFault(f"{where}: it has entry {entry.number}: one was left out, or moved")
    if entry.before != before:
        raise NoticesFault(f"{where}: it follows another line than the one before")
    if not is_signed(commitment.key, message(entry), entry.signature):
        raise NoticesFault(f"{where}: it is not signed by the committed key")
    return entry


def entry_in(line: bytes) -> Entry:
    """The entry of a line. Raises ValueError for another line."""
    if not line.endswith(b"\n"):
        raise ValueError("the line is cut")
    value = value_in(line)
    is_mock = isinstance(value, dict) and value.get("mock") is True
    has_keys(value, *KEYS, *mark_of(is_mock))
    bytes_of(value["before"], DIGEST)
    checked_round(value["number"])
    checked_time(value["time"])
    check_says(value["kind"], value["says"])
    value["signature"] = bytes_of(value["signature"], SIGNATURE)
    entry = Entry(**value)
    if entry.line() != line:
        raise ValueError("it is not written as notices are")
    return entry


# ---- Two copies


def compared(published: bytes, copy: bytes, commitment: bytes) -> Compared:
    """What a copy that someone saved proves, next to the published notices.

    Two signed entries of one number after the same entries prove that the operator showed two
    chains: nobody else can sign one. Anything else may have been made by whoever has the copy.
    Raises NoticesFault if the published notices are no chain of this operator.
    """
    entries = notices_in(published, commitment)
    count = len(entries)
    ours, theirs = (lines_of(text) for text in (published, copy))
    if published.startswith(copy):
        if published == copy:
            return Compared(SAME, f"the copy has the same {count} entries")
        whole = copy.count(b"\n")
        return Compared(
            SHORTER,
            f"the copy has the first {whole} of {count} entries; if it was saved after "
            f"{entries[whole].time}, the time of entry {whole + 1} is false",
        )
    place = next((at for at, (one, two) in enumerate(zip(ours, theirs)) if one != two), count)
    before = digest_of(ours[place - 1]) if place else digest_of(commitment)
    try:
        checked_entry(theirs[place], place + 1, before, commitment_of(commitment))
    except NoticesFault as fault:
        words = f"in the copy, {fault}: whoever made the copy can have done that"
        return Compared(UNPROVED, f"{words}, so it proves nothing against the operator")
    if place < count:
        return Compared(
            TWO_CHAINS,
            f"the operator signed two entries {place + 1} after the same entries, and showed one "
            "to the witness and one to others",
        )
    return Compared(
        LONGER,
        f"the copy has entry {place + 1}, which the operator signed, and the published file ends "
        "before it: ask the operator for the whole file",
    )
