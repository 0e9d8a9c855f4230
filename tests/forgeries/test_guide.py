"""The table "Who could cheat" of docs/auditors.md says what the tables of forgeries show."""
import re

import pytest

from auction.verify.findings import CHECKS

from tests.forgeries import test_begun
from tests.forgeries.test_announced import NOTICES
from tests.forgeries.test_table import ROWS
from tests.lib.paths import TOP

pytestmark = pytest.mark.early
ALL = {**ROWS, **NOTICES, **test_begun.ROWS}
NAMES = {name for name, _ in CHECKS}
SECTION = (
    (TOP / "docs/auditors.md")
    .read_text()
    .partition("## Who could cheat, and what shows it\n")[2]
    .partition("\n## ")[0]
)
LINES = [line.strip("|").split("|") for line in SECTION.splitlines() if line.startswith("|")]
GUIDE = [[cell.strip() for cell in line] for line in LINES[2:]]

# The forgeries of each row of the guide, by the beginning of what someone does, and their numbers.
MADE = {
    "changes a bid after a closing": "2 50c",
    "leaves a sheet out, or puts one in, after": "1 3",
    "cuts off the end": "7 7.1 7.3",
    "changes, cuts, or leaves out": "11 16 17",
    "puts in a sheet in a bidder's name": "12 13 14 12.1 13.1",
    "draws tie-breaking numbers until": "4 4.1 5 5.1",
    "makes many chains": "22.1 22.2 22.3",
    "holds the draw after": "65 65.1 65.2 71 71.1",
    "exchanges the set-up": "6 6.1 6.2 6.3 6.4",
    "exchanges the seed chain": "4 45 45.1 67.3",
    "publishes other results": "36 39 46",
    "makes a record with a false table": "40 41 42 43 43.1",
    "closes with another increment": "20 64 64.1 70",
    "takes a friend's sheet": "63.11 63.12 63.13 75.4 75.5",
    "writes a false second": "15 63.14",
    "puts in, leaves out, or changes a sheet after": "61 61.1 61.2 61.3 62 74",
    "freezes it late": "69.1",
    "ends a window early": "63 63.1 63.2 63.3 63.4 63.5",
    "lengthens a window after": "75.1",
    "puts a false timetable": "63.7 63.8 72 72.1 72.2 73.3 73.4 73.5 73.6",
    "gives a false time": "32 35 63.6 66 66.1",
    "shows two chains": "67.1 68 68.1",
    "publishes no notices": "21 64.2 64.3 67",
    "leaves out announcements": "33.1 34 66.2",
    "exchanges sheets of different bidders": "2.1",
    "shows different files": "50b 50c",
    "claims that a sheet was accepted": "26 27 27.1 28 29",
    "gives a copy of the notices": "69.2 69.3 69.4",
}
# What other tests make, or what leaves no trace in a file.
ELSEWHERE = {
    "promises no tie-breaking numbers": "tests/commit/test_lots.py",
    "leaves out winners": "tests/forgeries/test_every_change.py",
    "gives a set-up with exchanged tokens": "tests/forgeries/test_accusers.py",
    "gives no receipt": "tests/receipts",
}
NO_TRACE = (
    *("bids under another", "refuses a bidder's", "reads bids during", "leaves a receipt out"),
    *("denies a sheet", "bids with another", "looks for rivals'", "agrees with rivals"),
    *("reads the journal", "takes the server's", "holds the server's", "reads or changes"),
    "delays or drops",
)
# Honest auctions and files, what is harmless, and forgeries before anyone has saved a copy.
CONTROLS = (
    "5.2 12h 22 22b 22c 31.2 31.3 40h 50a 60h 60.1h 60.2h 60.3h 60.4h 60.5h 60.6h 69"
    " 70.1h 70.2h 70.3h 73h 73.1h 73.2h 75h 75.3h 75.6h".split()
)


def number_of(row: str) -> str:
    return row.partition("-")[0]


SHOWN = {number_of(name): set(row[2].split()) for name, row in ALL.items()}


def beginnings() -> list[str]:
    return [*MADE, *ELSEWHERE, *NO_TRACE]


def test_no_two_forgeries_have_one_number() -> None:
    assert len(SHOWN) == len(ALL)


def test_each_row_of_the_guide_is_made_or_has_no_trace() -> None:
    for row in GUIDE:
        assert sum(row[1].startswith(words) for words in beginnings()) == 1, row


@pytest.mark.parametrize("words", beginnings())
def test_each_beginning_is_one_of_the_guide(words: str) -> None:
    assert sum(row[1].startswith(words) for row in GUIDE) == 1


@pytest.mark.parametrize("words", MADE)
def test_a_row_of_the_guide_says_what_is_shown(words: str) -> None:
    text = next(row[2] for row in GUIDE if row[1].startswith(words))
    numbers = MADE[words].split()
    named = {name for name in re.findall("`([a-z]+)`", text) if name in NAMES}
    named |= {"receipts"} if "receipts" in text else set()
    if text.startswith("nothing") or "proves nothing" in text:
        assert all(not SHOWN[number] for number in numbers)
        return
    assert named <= {name for number in numbers for name in SHOWN[number]}
    if named:
        assert all(SHOWN[number] & named for number in numbers)


@pytest.mark.parametrize("number", [number for number, shown in SHOWN.items() if not shown])
def test_what_nothing_shows_is_in_the_guide_or_is_no_forgery(number: str) -> None:
    made = {one for numbers in MADE.values() for one in numbers.split()}
    assert (number in made) != (number in CONTROLS)


@pytest.mark.parametrize("path", sorted(set(ELSEWHERE.values())))
def test_what_other_tests_make_is_there(path: str) -> None:
    assert (TOP / path).exists()
