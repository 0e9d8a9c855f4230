"""Documents of a fixed size for benchmarks. The same size gives the same bytes."""
import math
import random
from dataclasses import dataclass

OPERATOR = "OPERATOROPERATOR"


@dataclass(frozen=True)
class Size:
    """The size of a replay.

    Each bidder wants blocks of a share of the products, up to limits that are at most `growth`
    times the opening price.
    """

    seed: str
    products: int
    bidders: int
    growth: int
    share: float


SIZES = (
    Size("anchor 105", 3233, 271, 700, 0.04),
    Size("anchor 1500x150", 1500, 150, 200, 0.06),
    Size("anchor 500x80", 500, 80, 40, 0.15),
    Size("anchor 100x30", 100, 30, 30, 0.4),
)


def product(chance, number):
    """A product of a replay. The seed decides its bidding units, supply, and opening price."""
    return {
        "name": f"P{number:04}",
        "units": chance.randint(1, 400),
        "supply": chance.choice((5, 7, 7, 10)),
        "cap": 4,
        "opening": int(math.exp(chance.uniform(math.log(100), math.log(1_000_000)))),
    }


def limits(chance, size, opening):
    """Up to which price each block of a product is wanted, never rising. Most products are not
    wanted.
    """
    wanted = chance.randint(1, 4) if chance.random() < size.share else 0
    top = opening * math.exp(chance.uniform(0, math.log(size.growth)))
    return sorted((int(top * chance.uniform(0.5, 1)) for _ in range(wanted)), reverse=True)


def ties(chance, size):
    """At most 200 tie-breaking numbers."""
    pairs = {(chance.randrange(size.bidders), chance.randrange(size.products)) for _ in range(200)}
    return [[bidder, product, chance.randrange(2**40)] for bidder, product in sorted(pairs)]


def replay(size):
    """A replay in which all bidders follow limits."""
    chance = random.Random(size.seed)
    products = [product(chance, number) for number in range(size.products)]
    bidders, scripts = [], []
    for number in range(size.bidders):
        rows = [limits(chance, size, one["opening"]) for one in products]
        units = sum(one["units"] * len(row) for one, row in zip(products, rows))
        bidders.append(
            {"name": f"B{number:03}", "token": f"T{number:024}", "eligibility": units + 1}
        )
        scripts.append({"kind": "sincere", "limits": rows})
    closings = [{"increment": 10, "ties": ties(chance, size)} for _ in range(120)]
    return {"closings": closings, "scripts": scripts, "setup": setup(products, bidders)}


def setup(products, bidders):
    """A set-up of these products and bidders."""
    return {
        "version": 1,
        "requirement": 95,
        "operator": OPERATOR,
        "products": products,
        "bidders": bidders,
    }


def wide_product(chance, number):
    """A product of the widest set-up."""
    word = chance.choice(("alpha", "be", "gamma_3"))
    return {
        "name": f"P{number:04}-{word}",
        "units": chance.randint(1, 1000),
        "supply": 1000,
        "cap": 1000,
        "opening": chance.randint(1, 10 ** chance.randint(1, 9)),
    }


def wide_bidder(chance, number):
    """A bidder of the widest set-up."""
    return {
        "name": f"Bidder_{number:03}",
        "token": f"T{chance.randrange(10**24):024}",
        "eligibility": chance.randint(10**11, 10**12),
    }


def prices():
    """A set-up of 4,096 products and 512 bidders."""
    chance = random.Random("wide")
    products = [wide_product(chance, number) for number in range(4096)]
    return setup(products, [wide_bidder(chance, number) for number in range(512)])


def opening():
    """Demands of 512 bidders for 4,096 products, a third of them above 0."""
    chance = random.Random("opening")
    pool = [0] * 70 + [1, 2, 3, 4, 5, 6, 7, 8, 9] * 2 + [12, 25, 40, 77, 100, 150] * 2
    rows = [chance.choices(pool, k=4096) for _ in range(512)]
    return {"demands": rows, "increment": 10, "setup": prices()}
