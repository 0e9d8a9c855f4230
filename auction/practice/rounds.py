"""Plays the rounds of a practice: rivals bid at random moments; a round closes after its time, or
if all have bid.
"""
import dataclasses
import random
import time
from typing import Any

from auction.formats.journal import Journal
from auction.formats.setup import Setup
from auction.practice.game import Game
from auction.practice.publishing import Board
from auction.practice.server import Server
from auction.practice.sincere import Prices, bids_of

INCREMENT = 10  # percent
MOST_TIES = 16_384
LAZY, QUICK = 8, 0.1  # seconds within which rivals bid
GRACE = 5  # seconds until the closing once everyone has bid
NAMED = 6  # The most products that an announcement names.

LOOK = 0.5  # seconds after which it looks whether the player has bid, if no sheet has come

Page = dict[str, Any]


@dataclasses.dataclass(frozen=True)
class Pace:
    """The seconds of a round, and whether someone plays in the browser, for whom round 1 waits."""

    seconds: int
    has_player: bool
    quick: bool

    @property
    def lazy(self) -> float:
        """The seconds within which rivals bid."""
        return QUICK if self.quick or not self.has_player else min(LAZY, self.seconds / 3)

    @property
    def grace(self) -> float:
        """The seconds until the closing once everyone has bid."""
        return 0 if self.quick or not self.has_player else GRACE


@dataclasses.dataclass(frozen=True)
class Ending:
    """The end of an auction: the closings that were sent, the last posted prices, and each bidder's
    results.
    """

    closings: list[Page]
    posted: list[int]
    bidders: list[Page]


def listed(names: list[str]) -> str:
    """Names joined for a sentence."""
    if len(names) > NAMED:
        names = [*names[:NAMED], f"{len(names) - NAMED} more"]
    return " and ".join([", ".join(names[:-1]), names[-1]]) if len(names) > 1 else names[0]


def closed_words(number: int, above: list[str]) -> str:
    """The announcement of a closed round, by the names of the products with excess demand."""
    if not above:
        return f"Round {number} is closed. No product has excess demand: the auction has ended."
    rise = "Its clock price rises" if len(above) == 1 else "Their clock prices rise"
    return (
        f"Round {number} is closed. Excess demand: {listed(above)}. {rise} by {INCREMENT} percent."
    )


class Rounds:
    """An auction from its first round to its last."""

    def __init__(
        self, game: Game, server: Server, board: Board, chance: random.Random, pace: Pace
    ) -> None:
        self.game, self.server, self.board, self.chance, self.pace = (
            game,
            server,
            board,
            chance,
            pace,
        )
        self.scripted = [
            bidder for bidder in range(len(game.names)) if bidder != game.you or not pace.has_player
        ]
        self.closings: list[Page] = []
        self.journal = Journal(
            server.folder / "auction.journal", Setup.read(server.folder / "setup.json")
        )

    def token(self, bidder: int) -> str:
        return str(self.game.setup["bidders"][bidder]["token"])

    def play(self) -> Ending:
        """Plays all rounds. Returns the end of the auction."""
        number, prices = 1, [
            (product["opening"], product["opening"]) for product in self.game.products
        ]
        while True:
            self.open(number, prices)
            page = self.close(number)
            if page["ended"]:
                break
            prices = [(sold["posted"], sold["next"]) for sold in page["products"]]
            number += 1
        results = self.server.page("/v1/results", self.game.setup["operator"])["bidders"]
        posted = [sold["posted"] for sold in page["products"]]
        self.board.winners(number, results, posted)
        return Ending(self.closings, posted, results)

    def open(self, number: int, prices: Prices) -> None:
        """Opens a round, and returns once it must close."""
        begun = time.time()
        closes = None if number == 1 and self.pace.has_player else begun + self.pace.seconds
        self.board.open_round(
            number, closes, "It closes after you submit bids." if closes is None else None
        )
        moments = sorted(
            ((begun + self.chance.uniform(0, self.pace.lazy), who) for who in self.scripted),
            reverse=True,
        )
        everyone = False
        while closes is None or time.time() < closes:
            while moments and moments[-1][0] <= time.time():
                self.bid(moments.pop()[1], number, prices)
            if not everyone and not moments and self.has_bid():
                everyone = True
                closes = min(closes or float("inf"), time.time() + self.pace.grace)
                self.board.close_at(number, closes)
            self.server.news.wait(0.02 if moments or everyone else LOOK)
            self.server.news.clear()

    def bid(self, bidder: int, number: int, prices: Prices) -> None:
        """Sends a scripted bidder's bids, which follow its values."""
        demands = self.server.page("/v1/me", self.token(bidder))["demands"]
        bids = bids_of(self.game.limits(bidder), self.game.products, prices, demands, number)
        self.server.page("/v1/me/bids", self.token(bidder), {"bids": bids, "round": number})

    def has_bid(self) -> bool:
        """Whether the player has nothing left to send: its bids are in force, or it has no
        eligibility.
        """
        if not self.pace.has_player:
            return True
        token = self.token(self.game.you)
        if self.server.page("/v1/me/bids", token)["bids"] is not None:
            return True
        return bool(self.server.page("/v1/me", token)["eligibility"] == 0)

    def ties(self) -> list[list[int]]:
        """Draws tie-breaking numbers for all pairs of bidder and product.

        If these are more than a closing may list, it draws numbers only for some pairs.
        """
        products = len(self.game.products)
        pairs = len(self.game.names) * products
        drawn = self.chance.sample(range(pairs), min(pairs, MOST_TIES))
        return [[pair // products, pair % products, number] for number, pair in enumerate(drawn, 1)]

    def close(self, number: int) -> Page:
        """Closes the round, publishes it, and returns its page."""
        count = len(self.game.products)
        increment: Page = (
            {"increments": [INCREMENT] * count}
            if self.game.setup["version"] == 2
            else {"increment": INCREMENT}
        )
        closing: Page = {**increment, "ties": self.ties()}
        self.server.page(
            "/v1/close", self.game.setup["operator"], {**closing, "round": number}, "POST"
        )
        self.closings.append(closing)
        page = self.server.page(f"/v1/rounds/{number}")
        self.board.close_round(page, self.digest())
        above = [sold["name"] for sold in page["products"] if sold["demand"] is not None]
        self.board.announce(closed_words(number, above))
        self.board.timetable(number if page["ended"] else number + 1, page["ended"])
        return page

    def digest(self) -> str:
        """The digest of everything accepted so far, from the journal."""
        self.journal.read_on()
        return self.journal.digest.hex()
