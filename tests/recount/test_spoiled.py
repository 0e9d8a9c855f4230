"""`auction recount` refuses a spoiled journal or set-up exactly if `clock_auction audit` does.

Both say the same fault. The journals are of 500 random auctions, each spoiled in six ways, or ended
by a request that the recount refuses.
"""
import hashlib

import pytest

from tests.lib.http import text_of
from tests.lib.journals import head_of, journal_of
from tests.lib.paths import EXAMPLES
from tests.recount.auctions import Played
from tests.recount.judged import AUCTIONS, Audit, auction_of, by_recount, differences
from tests.recount.spoiled import Case

MOST_REFUSED = 2  # Journals of an auction that end with a refused request.


def refused_cases(game: Played) -> list[Case]:
    """Journals that end with a request that the recount refused."""
    return [
        Case(code, game.document, journal_of(game.document, [*game.texts[:number], text]))
        for number, text, code in game.refused[:MOST_REFUSED]
    ]


@pytest.mark.parametrize("seed", AUCTIONS)
def test_audit_refuses_a_spoiled_journal_exactly_if_the_recount_does(
    seed: int, audit: Audit
) -> None:
    assert differences(audit, auction_of(seed)[1]) == []


@pytest.mark.parametrize("seed", AUCTIONS)
def test_audit_refuses_a_journal_with_a_refused_request(seed: int, audit: Audit) -> None:
    cases = refused_cases(auction_of(seed)[0])
    assert differences(audit, cases) == []
    assert all(by_recount(case)[2].startswith("fault: journal_refused ") for case in cases)


def test_spoiled_journals_are_many_and_often_refused() -> None:
    auctions = [auction_of(seed) for seed in AUCTIONS]
    cases = [case for game, made in auctions for case in [*made, *refused_cases(game)]]
    assert len(cases) >= 3_600
    assert sum(by_recount(case)[0] for case in cases) >= 1_000


def record(length: int, again: int | None = None, text: bytes = b"") -> bytes:
    """A record that says these lengths of its request."""
    both = length.to_bytes(4, "big") + (length if again is None else again).to_bytes(4, "big")
    return both + hashlib.sha256(hashlib.sha256(DOCUMENT).digest() + text).digest() + text


DOCUMENT = (EXAMPLES / "one_product.json").read_bytes()
PUT = text_of("PUT /v1/me/bids", "X" * 16, b'{"bids":[],"round":1}')
GOOD = record(len(PUT), text=PUT)
DAMAGED = {
    "a length of 0": (record(0), "fault: journal_damaged 56\n"),
    "a length of 16,777,216": (record(16_777_216), "fault: journal_damaged 56\n"),
    "two lengths": (record(5, 6, b"abcde"), "fault: journal_damaged 56\n"),
    "a longest length and no text": (record(16_777_215), ""),
    "a torn length": (b"\0\0\0\1", ""),
    "a digest cut off": (GOOD[:39], ""),
    "a text cut off": (GOOD[:-1], ""),
    "a last byte changed": (GOOD[:-1] + b"x", ""),
    "a first byte changed, and a record after it": (
        GOOD[:40] + b"x" + GOOD[41:] + GOOD,
        "fault: journal_damaged 56\n",
    ),
    "a request twice with the same digest": (
        GOOD + GOOD + b"x",
        f"fault: journal_damaged {56 + len(GOOD)}\n",
    ),
    "bytes of another length": (GOOD + b"\0" * 40, f"fault: journal_damaged {56 + len(GOOD)}\n"),
}


@pytest.mark.parametrize(("records", "fault"), DAMAGED.values(), ids=DAMAGED)
def test_record_is_damaged_or_torn(audit: Audit, records: bytes, fault: str) -> None:
    case = Case("records", DOCUMENT, head_of(DOCUMENT) + records)
    assert audit(case)[2] == fault
    assert audit(case) == by_recount(case)


@pytest.mark.parametrize("depth", [127, 128, 500, 900, 1000, 5000])
def test_document_is_json_exactly_if_it_is_nested_at_most_127_deep(
    audit: Audit, depth: int
) -> None:
    document = b"[" * depth + b"]" * depth
    case = Case("nested", document, head_of(document))
    fault = "setup_shape" if depth <= 127 else "setup_not_json"
    assert audit(case) == by_recount(case) == (1, "", f"fault: {fault}\n")
