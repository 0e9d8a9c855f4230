"""Which round cost a player what, in an auction that is counted by hand.

One block is sold. Its prices are 100, then 100 to 110, 110 to 121, and 121 to 134. The rival wants
it up to 125.
"""
from typing import Any

import pytest

from auction.practice.costs import Outcome, Played, costs, outcome
from auction.practice.game import Game
from auction.practice.outcome import costs_words
from auction.recount.formats import Bid
from tests.lib import setups

pytestmark = pytest.mark.early

YOU, RIVAL = 0, 1
CLOSING: dict[str, Any] = {"increment": 10, "ties": []}


def at(price: int) -> list[Bid]:
    """A bid for the block at a price."""
    return [Bid(product=0, quantity=1, price=price)]


BOTH = [{YOU: at(price), RIVAL: at(price)} for price in (100, 110, 121)]


def played(worth: int, *sheets: dict[int, list[Bid]]) -> Played:
    """An auction in which the block is worth this to the player."""
    bidders = [setups.bidder(name, name * 16, 1) for name in ("You", "Elm")]
    game = Game(setups.setup([setups.product("A", 1)], bidders), [[[worth]], [[125]]], YOU)
    return Played(game, list(sheets), [CLOSING] * len(sheets))


def test_following_the_values_costs_nothing() -> None:
    last = {YOU: at(134), RIVAL: [Bid(product=0, quantity=0, price=125)]}
    found = played(200, *BOTH, last)
    assert outcome(found, 1) == outcome(found, 5) == Outcome([1], 125, 75)
    assert costs(found) == {}


def test_the_round_in_which_a_player_left_too_early_cost_the_gain() -> None:
    """It would have won at 125 a block that is worth 200."""
    assert costs(played(200, *BOTH[:2], {RIVAL: at(121)})) == {3: 75}


def test_the_round_in_which_a_player_stayed_too_long_cost_the_loss() -> None:
    """It wins at 125 what is worth 115. After round 3 it could still leave at 121."""
    last = {YOU: at(134), RIVAL: [Bid(product=0, quantity=0, price=125)]}
    assert costs(played(115, *BOTH, last)) == {4: 10}


def test_bids_below_a_value_that_win_cheaper_are_a_gain() -> None:
    """The rival leaves in round 2 at its start price, since it sent no sheet."""
    found = played(105, {YOU: at(100), RIVAL: at(100)}, {YOU: at(110)})
    assert outcome(found, 3) == Outcome([1], 100, 5)
    assert costs(found) == {2: -5}


@pytest.mark.parametrize(
    ("found", "words"),
    [
        pytest.param({}, "", id="nothing"),
        pytest.param({3: 75}, " Compared with that, round 3 cost you $75.", id="one"),
        pytest.param(
            {1: -20, 3: 1500},
            " Compared with that, round 1 gained you $20, round 3 cost you $1,500.",
            id="both-kinds",
        ),
        pytest.param(
            {1: 1, 2: 9, 3: 8, 4: 7, 5: 6},
            " Compared with that, round 2 cost you $9, round 3 cost you $8, round 4 cost you $7, "
            "round 5 cost you $6.",
            id="the-dearest-four",
        ),
    ],
)
def test_costs_in_words(found: dict[int, int], words: str) -> None:
    assert costs_words(found) == words
