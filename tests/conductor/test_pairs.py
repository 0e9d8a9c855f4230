"""Which pairs of bidder and product need a tie-breaking number, and what happens if too many do."""
import dataclasses
import pathlib
from typing import Any

import pytest

from auction.conductor import closing, commands, observer
from auction.conductor.closing import Auction, pairs_that_matter
from auction.conductor.report import State
from tests.conductor.conftest import Conduct
from tests.lib.conducted import ConductedAuction, refusal

Bid = tuple[int, int, int]


class Results:
    """A server with these processed demands, a row a bidder."""

    def __init__(self, demands: list[list[int]]) -> None:
        self.demands = demands

    def page(self, _path: str) -> Any:
        return {"bidders": [{"demands": row} for row in self.demands]}


class Bids:
    """A journal with these bids in force."""

    def __init__(self, bids: set[Bid]) -> None:
        self.bids = bids

    def bids_in_force(self) -> set[Bid]:
        return self.bids


def pairs(demands: list[list[int]], bids: set[Bid]) -> set[tuple[int, int]]:
    setup: Any = None
    parts: list[Any] = [Results(demands), setup, Bids(bids), pathlib.Path()]
    return pairs_that_matter(Auction(*parts))


def test_processed_demand_matters() -> None:
    assert pairs([[0, 3], [0, 0]], set()) == {(0, 1)}


def test_a_bid_for_another_quantity_matters() -> None:
    assert pairs([[0, 0], [0, 0]], {(1, 0, 2)}) == {(1, 0)}


def test_a_bid_to_maintain_no_demand_does_not_matter() -> None:
    assert pairs([[0, 0], [0, 0]], {(1, 0, 0), (1, 1, 0)}) == set()


def test_a_bid_for_no_blocks_of_held_ones_matters() -> None:
    assert pairs([[2, 0], [0, 0]], {(0, 0, 0)}) == {(0, 0)}


def test_bids_of_nothing_do_not_add_up() -> None:
    demands = [[1] * 500] * 6 + [[0] * 500] * 34
    bids = {(bidder, product, 0) for bidder in range(6, 40) for product in range(499)}
    assert len(pairs(demands, bids)) == 6 * 500


@pytest.fixture
def crowded(conduct: Conduct, monkeypatch: pytest.MonkeyPatch) -> ConductedAuction:
    """An auction whose closings can list one pair, and whose round 2 has two that matter."""
    monkeypatch.setattr(closing, "MOST_TIES", 1)
    monkeypatch.setattr(observer, "MOST_TIES", 1)
    auction = conduct()
    auction.conductor.limits = dataclasses.replace(auction.conductor.limits, pairs=1)
    auction.play(State.CLOSED)
    auction.play(State.HELD)
    return auction


def test_too_many_pairs_are_a_doubt_with_the_command_to_type(crowded: ConductedAuction) -> None:
    assert "more pairs of bidder and product matter" in crowded.words
    assert "To close it: next 2 --no-ties." in crowded.words


def test_the_word_must_say_no_ties(crowded: ConductedAuction) -> None:
    fault = refusal(commands.close_next, crowded.context(), 2, False)
    assert "add --no-ties" in fault


def test_the_word_closes_without_numbers(crowded: ConductedAuction) -> None:
    commands.close_next(crowded.context(), 2, False, True)
    assert crowded.look() is State.CLOSED
    assert crowded.page("kept/closing-2.json")["ties"] == []
