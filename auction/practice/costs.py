"""What each round cost a player, compared with a bidder that follows the same values.

The auction is played again by the rules, with the sheets and closings that it had. From some round
on, the player follows its values. The gain then, less the gain of following them only from the
next round on, is what the player's own bids of that round cost.
"""
import dataclasses
import json
from typing import Any

from auction.practice.game import Game
from auction.practice.sincere import bids_of
from auction.recount.formats import Bid, Refused, setup_in
from auction.recount.rules import Auction

MOST_ROUNDS = 1_000  # of an auction that is played again
MOST_STEPS = 2_000_000  # pairs of bidder and product, in all rounds of all auctions

Sheets = dict[int, list[Bid]]  # by bidder


@dataclasses.dataclass(frozen=True)
class Played:
    """An auction that has ended: the game, the sheets of each round, and the closings."""

    game: Game
    sheets: list[Sheets]
    closings: list[dict[str, Any]]

    def increments(self, number: int) -> tuple[list[int], list[list[int]]]:
        """Increments and tie-breaking numbers of a round.

        A round that the auction did not have gets the last increments, and no numbers.
        """
        closing = self.closings[min(number, len(self.closings)) - 1]
        count = len(self.game.products)
        increments = closing.get("increments") or [closing["increment"]] * count
        return increments, closing["ties"] if number <= len(self.closings) else []


@dataclasses.dataclass(frozen=True)
class Outcome:
    """What a bidder has at the end: its blocks, what it pays, and its gain."""

    demands: list[int]
    pays: int
    gain: int


def outcome(played: Played, first: int) -> Outcome | None:
    """The end for the player if it follows its values from a round on.

    The rivals send the sheets that they sent before this round, and then follow their values too.
    None if a sheet that follows values is refused, such as for too much activity.
    """
    game = played.game
    auction = Auction(setup_in(json.dumps(game.setup).encode()))
    while not auction.ended:
        number = len(auction.rounds) + 1
        if number > MOST_ROUNDS:
            return None
        sheets = played.sheets[number - 1] if number < first else sincere(game, auction)
        try:
            for bidder, bids in sheets.items():
                auction.put(bidder, number, bids)
            auction.close(number, *played.increments(number))
        except Refused:
            return None
    demands = auction.demands[game.you]
    posted = [line.posted for line in auction.rounds[-1].lines]
    pays = sum(blocks * price for blocks, price in zip(demands, posted))
    return Outcome(demands, pays, game.gain(game.you, demands, posted))


def sincere(game: Game, auction: Auction) -> Sheets:
    """The sheets of all bidders for the current round, if all follow their values."""
    number = len(auction.rounds) + 1
    prices = [(price.start, price.clock) for price in auction.prices]
    return {
        bidder: [
            Bid(**bid)
            for bid in bids_of(
                game.limits(bidder), game.products, prices, auction.demands[bidder], number
            )
        ]
        for bidder in range(len(game.names))
    }


def costs(played: Played) -> dict[int, int]:
    """What each round cost the player, without the rounds that cost nothing.

    A negative cost is a gain. Empty if the auction is too large to be played so often.
    """
    rounds = len(played.closings)
    if rounds**2 * len(played.game.products) * len(played.game.names) > MOST_STEPS:
        return {}
    ends = [outcome(played, first) for first in range(1, rounds + 2)]
    if any(end is None for end in ends):
        return {}
    gains = [end.gain for end in ends if end]
    found = {number: gains[number - 1] - gains[number] for number in range(1, rounds + 1)}
    return {number: cost for number, cost in found.items() if cost}
