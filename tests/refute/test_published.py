"""Tries to find a forgery that no check shows, with planted mistakes in the checks.

The forgeries are the rows of tests/forgeries. Each mistake must make one of them unseen, or make an
honest auction look forged. Random auctions and single changes are in test_every_change there.
"""
import pathlib
from collections.abc import Callable, Iterator
from typing import Any

import pytest

from auction.formats import notices, receipts, record, ties
from auction.verify import announced, auction, case, findings, folder, increments, windows
from tests.forgeries.changes import TEXTS, TRUE, Row
from tests.forgeries.test_announced import NOTICES
from tests.forgeries.test_table import ROWS
from tests.forgeries.written import Evidence

pytestmark = pytest.mark.early
ALL: dict[str, Row] = {**ROWS, **NOTICES}


def is_as_expected(row: Row, folder: pathlib.Path) -> bool:
    """Whether the checks show a forgery, and nothing of an honest auction."""
    forge, given, shown = row
    found = Evidence(TRUE, TEXTS)
    forge(found)
    failed = found.failed(folder, given)
    return bool(failed) if shown else not failed


def nothing(*_: Any, **_words: Any) -> list[str]:
    return []


def true(*_: Any, **_words: Any) -> bool:
    return True


def false(*_: Any, **_words: Any) -> bool:
    return False


def no_fault(*_: Any, **_words: Any) -> None:
    """A check that never refuses."""


def last_rule(entries: list[notices.Entry], _: int) -> list[notices.Entry]:
    """Takes the rule that was announced last, whenever that was."""
    return announced.of_kind(entries, "increments")[-1:]


# What is wrong, and the row that finds it.
MISTAKES: list[tuple[Any, str, Any, str]] = [
    (receipts, "unsent", nothing, "13.1-put-in-and-its-receipt-stored"),
    (receipts, "without_receipt", nothing, "13-a-sheet-put-in"),
    (receipts, "missing", nothing, "11-a-sheet-left-out"),
    (receipts, "is_signed", true, "27-receipts-of-another-auction"),
    (receipts, "is_signed", false, "12h-a-sheet-that-its-next-one-replaces"),
    (ties, "check_ties", no_fault, "5.1-a-pair-left-out"),
    (ties, "seed_before", lambda seed, *_: seed, "12h-a-sheet-that-its-next-one-replaces"),
    (auction, "is_as_served", true, "39-other-words-for-the-same-values"),
    (auction, "announcement_faults", nothing, "32-announcements-back-dated"),
    (auction, "announcements_in", nothing, "34-no-announcements-and-no-winners"),
    (folder, "check_no_index", no_fault, "40-no-index-and-a-false-table"),
    (record, "names_in", lambda _: set(record.OWN), "40h-an-honest-record"),
    (notices, "is_signed", true, "67.5-notices-that-another-key-signed"),
    (notices, "is_signed", false, "12h-a-sheet-that-its-next-one-replaces"),
    (announced, "round_faults", nothing, "61-a-sheet-put-in-after-the-freezing"),
    (announced, "repeated", nothing, "62.11-frozen-with-another-digest-before"),
    (announced, "strange", nothing, "62.9-a-round-closed-that-is-none"),
    (announced, "is_increment", true, "62.7-another-increment-of-a-closing"),
    (windows, "opening_faults", nothing, "63.2-a-window-that-opens-early"),
    (windows, "shortened", false, "63.1-a-window-shortened-while-it-is-open"),
    (windows, "shortened", true, "60h-a-window-that-was-extended"),
    (windows, "taken_faults", nothing, "63.11-a-friend-s-sheet-after-the-window"),
    (windows, "published_faults", nothing, "35-another-time-of-publication"),
    (windows, "timetable_faults", nothing, "63.7-a-false-timetable"),
    (announced, "is_between", true, "32-announcements-back-dated"),
    (increments, "rules_for", last_rule, "60.2h-a-rule-for-the-next-rounds"),
]


@pytest.mark.parametrize(
    "module, name, wrong, row",
    MISTAKES,
    ids=[f"{module.__name__.rpartition('.')[2]}-{name}-{row}" for module, name, _, row in MISTAKES],
)
def test_a_planted_mistake_in_a_check_is_found(
    module: Any,
    name: str,
    wrong: Callable[..., Any],
    row: str,
    monkeypatch: pytest.MonkeyPatch,
    tmp_path: pathlib.Path,
) -> None:
    assert is_as_expected(ALL[row], tmp_path / "right")
    monkeypatch.setattr(module, name, wrong)
    assert not is_as_expected(ALL[row], tmp_path / "wrong")


def checks() -> Iterator[str]:
    """The checks that some forgery needs."""
    yield from (name for name, _ in findings.CHECKS if name not in ("set-up", "lots"))


def all_hold(_: case.Case) -> str:
    return "everything is right"


@pytest.mark.parametrize("check", checks())
def test_a_check_that_always_holds_is_found(
    check: str, monkeypatch: pytest.MonkeyPatch, tmp_path: pathlib.Path
) -> None:
    """Some row needs exactly this check to show what it says."""
    needing = [row for row in ALL.values() if check in row[2].split()]
    assert needing
    made = [(name, all_hold if name == check else one) for name, one in findings.CHECKS]
    monkeypatch.setattr(findings, "CHECKS", made)
    forge, given, shown = needing[0]
    found = Evidence(TRUE, TEXTS)
    forge(found)
    assert not found.failed(tmp_path, given).keys() >= set(shown.split())
