"""For random auctions, each single change of what was published, signed, or stored is shown, or is
one of UNSEEN.
"""
import datetime
import json
import pathlib
import random
import re
from collections import Counter
from collections.abc import Callable
from typing import Any

import pytest

from auction.recount.formats import Refused
from auction.verify.case import Case
from tests.forgeries.auction import failing
from tests.forgeries.written import (
    BIDDERS,
    OTHER_KEY,
    Evidence,
    Promise,
    Texts,
    counted_of,
    document_of,
    file_of,
    sheet,
)
from tests.lib.journals import journal_of

pytestmark = pytest.mark.early
AUCTIONS = 8
CHANGES = 10  # of each kind, in each auction
TIME = re.compile(r"\d{4}-[01]\d-[0-3]\dT[0-2]\d:[0-5]\d:[0-5]\dZ", re.ASCII)
OPTIONAL = ("published/notices.jsonl", "published/winners.json")
SLACK = 60  # seconds by which a page's time may differ from the notices around its own
# What nothing shows. Each is also in the table of docs/auditors.md.
UNSEEN = {
    "a file that need not be there": "notices.jsonl or winners.json are left out: it says so",
    "a time": "when a round was published, or an announcement was made, since the notice before",
    "a statement more": "a bidder says that it sent a sheet which it did not send",
    "no statement": "a file without a receipt no longer names its bidder, and proves nothing",
    "no difference": "the file has the same values in another form, or lines in another order",
    "another order": "sheets of different bidders are exchanged before their closing",
}


# ---- A random auction


def accepted(promise: Promise, texts: Texts) -> bool:
    """Whether the rules accept these requests."""
    try:
        counted_of(promise.document, journal_of(promise.document, texts))
    except Refused:
        return False
    return True


def has_ended(promise: Promise, texts: Texts) -> bool:
    return counted_of(promise.document, journal_of(promise.document, texts)).auction.ended


def random_auction(chance: random.Random) -> tuple[Promise, Texts]:
    """An auction of up to four rounds, in which bidders send one sheet or two, or none."""
    document = document_of(supply := chance.randint(2, 4), chance.randint(1, supply))
    promise, texts = Promise(document, draw=chance.choice(["", "5 17 33"])), Texts()
    for number in range(1, 5):
        low, high = (100, 100) if number == 1 else (100, 150)
        for _ in range(chance.randint(3, 24)):
            name, price = chance.choice("XYZ"), chance.randint(low, high)
            more = [*texts, sheet(name, number, chance.randint(0, 3), price)]
            texts = more if accepted(promise, more) else texts
        texts = [*texts, promise.closing(number)]
        if has_ended(promise, texts) and number > 1:
            break
        if has_ended(promise, texts):
            return random_auction(chance)  # without a second round there is no number and no draw
    return promise, texts


# ---- Changes of a file


def flipped(chance: random.Random, text: bytes) -> bytes:
    """A file with another byte somewhere, which is printable."""
    place = chance.randrange(len(text))
    other = chance.choice([byte for byte in b' "019afz,{}' if byte != text[place]])
    return text[:place] + bytes([other]) + text[place + 1 :]


def shorter(chance: random.Random, text: bytes) -> bytes:
    return text[: chance.randrange(len(text))]


def without_line(chance: random.Random, text: bytes) -> bytes:
    lines = text.splitlines(keepends=True)
    del lines[chance.randrange(len(lines))]
    return b"".join(lines)


def line_twice(chance: random.Random, text: bytes) -> bytes:
    lines = text.splitlines(keepends=True)
    return b"".join([*lines, chance.choice(lines)])


def lines_exchanged(chance: random.Random, text: bytes) -> bytes:
    lines = text.splitlines(keepends=True)
    one, other = chance.randrange(len(lines)), chance.randrange(len(lines))
    lines[one], lines[other] = lines[other], lines[one]
    return b"".join(lines)


KINDS: dict[str, Callable[[random.Random, bytes], bytes]] = {
    "a-byte-changed": flipped,
    "cut-off": shorter,
    "a-line-left-out": without_line,
    "a-line-twice": line_twice,
    "lines-exchanged": lines_exchanged,
}


# ---- What nothing shows


def values_in(text: bytes) -> list[Any] | None:
    """The values of a bidder's lines, or None if one has none."""
    try:
        return [json.loads(line) for line in text.decode().removesuffix("\n").split("\n")]
    except ValueError:
        return None


def is_near(old: str, new: str) -> bool:
    """Whether a time is as near to the one that the notices have as nothing can tell.

    A round is published, and announced in that second, 1,780 s after its closing.
    """
    if not TIME.fullmatch(new):
        return False
    passed = (moment_of(new) - moment_of(old)).total_seconds()
    return -1780 - SLACK <= passed <= SLACK


def moment_of(time: str) -> datetime.datetime:
    return datetime.datetime.strptime(time, "%Y-%m-%dT%H:%M:%SZ")


def reason_of_round(old: Any, new: Any) -> str:
    same = {**old, "published": new["published"]} == new
    return "a time" if same and is_near(old["published"], new["published"]) else ""


def reason_of_announcements(old: Any, new: Any) -> str:
    """Only times may differ."""
    for one, other in zip(old["announcements"], new["announcements"], strict=True):
        if {**one, "time": other["time"]} != other:
            return ""
        if not is_near(one["time"], other["time"]):
            return ""
    return "a time"


def counted(values: list[Any]) -> Counter[str]:
    return Counter(json.dumps(value, sort_keys=True) for value in values)


def is_statement(line: str) -> bool:
    return json.loads(line).keys() in ({"sent"}, {"bidder"})


def reason_of_lines(old: bytes, new: bytes) -> str:
    """Why nothing shows a change of a bidder's file, or nothing."""
    before, after = values_in(old), values_in(new)
    if before is None or after is None or not after or before[0] != after[0]:
        return ""
    more, less = counted(after) - counted(before), counted(before) - counted(after)
    if any("signature" in line for line in (*more, *less)):
        return ""
    if not more and not less:
        return "no difference"
    if not less:
        return "a statement more" if all(map(is_statement, more)) else ""
    if not more and all('"bidder"' in line for line in less):
        has_receipts = any("signature" in value for value in after)
        return "no difference" if has_receipts else "no statement"
    return ""


def reason(name: str, old: bytes, new: bytes | None) -> str:
    """Why nothing shows this change: one of UNSEEN, or nothing if it must be shown."""
    if new is None:
        return "a file that need not be there" if name in OPTIONAL else ""
    if name == "published/notices.jsonl":
        return ""
    if name.endswith(".jsonl"):
        return reason_of_lines(old, new)
    try:
        values = json.loads(old), json.loads(new)
        if values[0] == values[1]:
            return ""
        if name.startswith("published/rounds/"):
            return reason_of_round(*values)
        if name == "published/announcements.json":
            return reason_of_announcements(*values)
    except (ValueError, KeyError, TypeError, AttributeError):
        pass
    return ""


# ---- The property


class Played:
    """The files of a random auction, in a folder."""

    def __init__(self, seed: int, folder: pathlib.Path) -> None:
        self.chance, self.folder = random.Random(seed), folder
        self.promise, self.texts = random_auction(self.chance)
        self.evidence = Evidence(self.promise, self.texts)

    def case(self) -> Case:
        self.evidence.commitment = self.promise.commitment()
        return self.evidence.case(self.folder, BIDDERS)

    def files(self) -> list[str]:
        """The files that an auditor has, besides the folder's own journal and set-up."""
        paths = (path for path in self.folder.rglob("*") if path.is_file())
        return sorted(str(path.relative_to(self.folder)) for path in paths)

    def check(self, name: str, new: bytes | None) -> None:
        """A change of a file is shown exactly if it must be."""
        path, case = self.folder / name, self.case()
        old = path.read_bytes()
        if new == old:
            return
        if new is None:
            path.unlink()
        else:
            path.write_bytes(new)
        failed, why = failing(case), reason(name, old, new)
        assert why in ("", *UNSEEN)
        path.write_bytes(old)
        assert bool(failed) == (not why), (name, why, failed, old, new)


@pytest.fixture(scope="module", params=range(AUCTIONS))
def played(request: pytest.FixtureRequest, tmp_path_factory: pytest.TempPathFactory) -> Played:
    return Played(request.param, tmp_path_factory.mktemp("played"))


def test_an_auction_that_nobody_changed_verifies(played: Played) -> None:
    assert failing(played.case()) == {}


@pytest.mark.parametrize("kind", KINDS.values(), ids=KINDS)
def test_each_change_of_a_file_is_shown_or_is_one_that_nothing_shows(
    played: Played, kind: Callable[[random.Random, bytes], bytes]
) -> None:
    played.case()
    files = played.files()
    for _ in range(CHANGES):
        name = played.chance.choice(files)
        played.check(name, kind(played.chance, (played.folder / name).read_bytes()))


def test_each_file_that_is_left_out_is_shown_or_is_one_that_nothing_shows(played: Played) -> None:
    played.case()
    for name in played.files():
        if name.startswith("published/"):
            played.check(name, None)


def test_each_receipt_of_another_auction_is_shown(played: Played) -> None:
    """One receipt is exchanged for that of another key."""
    other = Promise(played.promise.document, key=OTHER_KEY, draw=played.promise.draw)
    for name in "XYZ":
        honest, false = (file_of(one, played.texts, name) for one in (played.promise, other))
        for place in (place for place, line in enumerate(honest) if "signature" in line):
            lines = [*honest[:place], false[place], *honest[place + 1 :]]
            played.check(f"{name}.jsonl", "".join(json.dumps(x) + "\n" for x in lines).encode())


# ---- Changes before a closing, published by the rules


def is_other_order(old: Texts, new: Texts) -> bool:
    """Whether only sheets of different bidders in one round are exchanged."""
    return all(
        [text for text in old if name in text or text.startswith(b"POST ")]
        == [text for text in new if name in text or text.startswith(b"POST ")]
        for name in (f"Bearer {letter * 16}".encode() for letter in BIDDERS)
    )


def changed_sheets(chance: random.Random, texts: Texts) -> Texts:
    """A sheet is left out, put in again elsewhere in its round, or exchanged for the next one."""
    place = chance.randrange(len(texts) - 1)
    kind = chance.randrange(3)
    if kind == 0:
        return texts[:place] + texts[place + 1 :]
    if kind == 1:
        return [*texts[: place + 1], texts[place], *texts[place + 1 :]]
    return [*texts[:place], texts[place + 1], texts[place], *texts[place + 2 :]]


def test_each_change_before_a_closing_is_shown_by_receipts_or_is_another_order(
    played: Played, tmp_path: pathlib.Path
) -> None:
    for step in range(CHANGES):
        texts = changed_sheets(played.chance, played.texts)
        if texts == played.texts or not accepted(played.promise, texts):
            continue
        found = Evidence(played.promise, played.texts)
        found.publish(played.promise, texts)
        failed = found.failed(tmp_path / str(step), BIDDERS)
        harmless = is_other_order(played.texts, texts)
        assert ("receipts" in failed) == (not harmless), (texts, failed)
