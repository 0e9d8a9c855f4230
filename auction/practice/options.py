"""What a practice is asked to be."""
import dataclasses
import pathlib
import random

from auction.practice import PracticeFault
from auction.practice import game as games
from auction.practice.game import Game
from auction.practice.sincere import Limits, limits_of


@dataclasses.dataclass(frozen=True)
class Options:
    """The game, its pace, and where it runs."""

    seed: int
    port: int
    seconds: int  # the longest time of a round
    bidders: int = 4
    products: int = 3
    version: int = 1
    setup: pathlib.Path | None = None  # a set-up document, or a page of products
    you: str | None = None  # the bidder of the set-up that the player is
    values: pathlib.Path | None = None  # the player's
    folder: pathlib.Path | None = None
    program: pathlib.Path | None = None
    quick: bool = False
    demo: bool = False

    def limits(self) -> Limits | None:
        """The player's values, if a file gives them."""
        return limits_of(self.values) if self.values else None

    def game(self, chance: random.Random) -> Game:
        """Draws the game."""
        if self.setup:
            game = games.game_of(chance, self.setup, self.bidders, self.you)
        else:
            game = games.new_game(chance, self.products, self.bidders, self.version)
        if wanted := self.limits():
            if strangers := wanted.keys() - {product["name"] for product in game.products}:
                names = ", ".join(sorted(strangers))
                raise PracticeFault(f"{self.values}: no product is called {names}.")
            game.values[game.you] = [
                wanted.get(product["name"], [])[: product["cap"]] for product in game.products
            ]
        return game
