"""Tries to find a closed round that differs from a calculation by hand, or from the recount.

The calculation searches the whole list of requests again after each change, as the rules say. The
program has a queue of events. So this also looks for a closing in which the two procedures differ.
"""
import dataclasses
from collections.abc import Callable
from typing import Any

import pytest

from auction.recount import rules
from tests.lib.journals import journal_of
from tests.recount.conftest import audit
from tests.recount.judged import Audit, auction_of, differences
from tests.recount.spoiled import Case
from tests.refute.by_hand import Mistakes, lines_by_hand

AUCTIONS = range(1_000, 1_060)  # other ones than in tests/recount
__all__ = ["audit"]


def case_of(seed: int) -> Case:
    game = auction_of(seed)[0]
    return Case(str(seed), game.document, journal_of(game.document, game.texts))


def printed(audit: Audit, seed: int) -> list[str]:
    """The lines of the program's audit, without digests."""
    status, output, error = audit(case_of(seed))
    assert (status, error) == (0, "")
    return [line for line in output.splitlines() if not line.startswith(("closed ", "journal "))]


def by_hand(seed: int, mistakes: Mistakes = Mistakes()) -> list[str]:
    game = auction_of(seed)[0]
    return lines_by_hand(game.document, game.texts, mistakes)


@pytest.mark.parametrize("seed", AUCTIONS)
def test_no_closed_round_differs_from_a_calculation_by_hand(seed: int, audit: Audit) -> None:
    assert printed(audit, seed) == by_hand(seed)


@pytest.mark.parametrize("name", [field.name for field in dataclasses.fields(Mistakes)])
def test_a_planted_mistake_in_the_rules_is_found(name: str, audit: Audit) -> None:
    assert any(by_hand(seed, Mistakes(**{name: True})) != printed(audit, seed) for seed in AUCTIONS)


def down(numerator: int, denominator: int) -> int:
    return numerator // denominator


def without_waiting(board: rules.Board, requests: list[rules.Request]) -> None:
    """Tries each request once."""
    for request in sorted(requests):
        board.apply(request, board.room(request, abs(request.change)))


IN_RECOUNT: dict[str, tuple[str, Any]] = {
    "rounded-down": ("up", down),
    "each-request-once": ("process", without_waiting),
    "eligibility-never-lost": ("next_eligibility", lambda eligibility, *_: eligibility),
    "prices-that-stay": ("raised", lambda start, *_: start + 1),
}


@pytest.mark.parametrize("name, wrong", IN_RECOUNT.values(), ids=list(IN_RECOUNT))
def test_a_planted_mistake_in_the_recount_is_found(
    name: str, wrong: Callable[..., Any], audit: Audit, monkeypatch: pytest.MonkeyPatch
) -> None:
    cases = [case_of(seed) for seed in AUCTIONS[:20]]
    monkeypatch.setattr(rules, name, wrong)
    assert differences(audit, cases)
