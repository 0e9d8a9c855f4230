"""The game of a practice: its set-up, and what each block is worth to each bidder."""
import dataclasses
import json
import pathlib
import random
import secrets
from typing import Any

from auction.practice import PracticeFault

TOKEN = "PRACTICEPRACTICE"
YOU = "You"
RIVALS = ("Alder", "Birch", "Cedar", "Dogwood", "Elm", "Fir", "Ginkgo", "Hazel")
PLACES = (
    "Albany",
    "Boston",
    "Chicago",
    "Denver",
    "El-Paso",
    "Fargo",
    "Galveston",
    "Houston",
    "Indio",
    "Juneau",
    "Kansas-City",
    "Lubbock",
    "Memphis",
    "Nashville",
    "Oakland",
    "Portland",
    "Quincy",
    "Raleigh",
    "Seattle",
    "Tampa",
    "Utica",
    "Ventura",
    "Wichita",
    "Xenia",
    "Yuma",
    "Zanesville",
)
REQUIREMENT, LIMIT = 90, 120  # percent
CROWD = 2.2  # aggregate demand in round 1, divided by supply
# what a bidder's first block is worth above its opening price, as a part of that price; yours is
# never among the least
PREMIUM, YOUR_PREMIUM = (0.4, 1.6), (0.8, 1.6)

Setup = dict[str, Any]
Values = list[
    list[int]
]  # for each product, what the first block is worth, the second, and so on; never rising


@dataclasses.dataclass
class Game:
    """A set-up in which each bidder has a token of this practice, and the values of each bidder in
    the same order.
    """

    setup: Setup
    values: list[Values]
    you: int

    @property
    def products(self) -> list[dict[str, Any]]:
        products: list[dict[str, Any]] = self.setup["products"]
        return products

    @property
    def names(self) -> list[str]:
        return [bidder["name"] for bidder in self.setup["bidders"]]

    def limits(self, bidder: int) -> dict[str, list[int]]:
        """A bidder's values in the form of the LIMITS of examples/bidder.py."""
        return {product["name"]: row for product, row in zip(self.products, self.values[bidder])}

    def write(self, folder: pathlib.Path) -> None:
        """Writes the set-up document for the server, and the player's values."""
        (folder / "setup.json").write_text(json.dumps(self.setup, indent=1) + "\n")
        (folder / "values.json").write_text(json.dumps(self.limits(self.you)) + "\n")

    def gain(self, bidder: int, demands: list[int], posted: list[int]) -> int:
        """What the blocks that a bidder won are worth to it, less what it pays for them."""
        return sum(
            sum(row[:blocks]) - blocks * price
            for row, blocks, price in zip(self.values[bidder], demands, posted)
        )


def drawn_products(chance: random.Random, count: int, version: int) -> list[dict[str, Any]]:
    """Draws the products of a market with this number of areas."""
    names = [*PLACES, *(f"Area-{number}" for number in range(len(PLACES) + 1, count + 1))][:count]
    products = []
    for name in names:
        units, supply = 5 * chance.randint(1, 6), chance.randint(3, 6)
        opening = units * chance.randint(7, 13) * 10
        product: dict[str, Any] = {
            "name": name,
            "units": units,
            "supply": supply,
            "cap": supply - chance.randint(1, 2),
            "opening": opening,
        }
        products.append({**product, "granule": 10} if version == 2 else product)
    return products


def drawn_values(
    chance: random.Random,
    products: list[dict[str, Any]],
    bidders: int,
    premium: tuple[float, float],
) -> Values:
    """Draws what each block of each product is worth to one bidder.

    A block is worth the opening price or more. The bidder wants no others.
    """
    values = []
    for product in products:
        opening, average = product["opening"], CROWD * product["supply"] / bidders
        wanted = min(product["cap"], int(average) + (chance.random() < average % 1))
        most, unit = chance.uniform(*premium), 10 if opening >= 100 else 1
        parts = (1 + most * (1 - block / (wanted + 0.5)) for block in range(wanted))
        values.append([max(opening, int(opening * part) // unit * unit) for part in parts])
    return values


def activity_of(products: list[dict[str, Any]], values: Values) -> int:
    """The activity of a bid for all blocks with a value."""
    return sum(product["units"] * len(row) for product, row in zip(products, values))


def within(eligibility: int, products: list[dict[str, Any]], values: Values) -> Values:
    """The values without those of the least valuable blocks, so that the rest is within an
    eligibility.
    """
    left, activity = [list(row) for row in values], activity_of(products, values)
    order = sorted(
        (row[block] / product["opening"], place)
        for place, (product, row) in enumerate(zip(products, values))
        for block in range(len(row))
    )
    for _, place in order:
        if activity <= eligibility:
            break
        left[place].pop()
        activity -= products[place]["units"]
    return left


def drawn(chance: random.Random, public: Setup, bidders: int) -> Game:
    """Draws a game for a public set-up: you and rivals, each eligible for the blocks that it
    wants.
    """
    products = public["products"]
    names = [YOU, *RIVALS, *(f"Rival-{number}" for number in range(len(RIVALS) + 1, bidders))][
        :bidders
    ]
    values = [
        drawn_values(chance, products, bidders, YOUR_PREMIUM if name == YOU else PREMIUM)
        for name in names
    ]
    entries = [
        {"name": name, "eligibility": activity_of(products, rows)}
        for name, rows in zip(names, values)
    ]
    return with_tokens({**public, "bidders": entries}, values, 0)


def with_tokens(setup: Setup, values: list[Values], you: int) -> Game:
    """The game of a set-up whose tokens are replaced by those of this practice."""
    bidders = [
        {**bidder, "token": TOKEN if number == you else secrets.token_hex(16)}
        for number, bidder in enumerate(setup["bidders"])
    ]
    return Game({**setup, "operator": secrets.token_hex(16), "bidders": bidders}, values, you)


def new_game(chance: random.Random, products: int, bidders: int, version: int) -> Game:
    """Draws a game of drawn products."""
    public = {
        "version": version,
        "requirement": REQUIREMENT,
        "products": drawn_products(chance, products, version),
    }
    return drawn(chance, {**public, "limit": LIMIT} if version == 2 else public, bidders)


def game_of(chance: random.Random, path: pathlib.Path, bidders: int, you: str | None) -> Game:
    """The game of a file: a set-up document, or the page that `GET /v1/products` gives, which names
    no bidders.
    """
    try:
        document = json.loads(path.read_text(encoding="utf-8-sig"))
        if "bidders" not in document:
            return drawn(chance, document, bidders)
        names, products = [bidder["name"] for bidder in document["bidders"]], document["products"]
        if you is not None and you not in names:
            raise PracticeFault(
                f"{path}: no bidder is called {you}. The bidders are {', '.join(names)}."
            )
        place = 0 if you is None else names.index(you)
        premiums = [YOUR_PREMIUM if number == place else PREMIUM for number in range(len(names))]
        values = [
            within(
                bidder["eligibility"], products, drawn_values(chance, products, len(names), premium)
            )
            for bidder, premium in zip(document["bidders"], premiums)
        ]
        return with_tokens(document, values, place)
    except (OSError, ValueError, KeyError, TypeError, IndexError) as error:
        fault = f"{type(error).__name__} {error}"
        raise PracticeFault(
            f"{path} is neither a set-up document nor a page of products: {fault}. "
            "See docs/formats.md."
        ) from error
