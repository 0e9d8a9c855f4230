"""Random auctions, as the requests of their journals.

The recount decides which sheets and closings are accepted.
"""
import dataclasses
import itertools
import json
from random import Random
from typing import Any

from auction.recount.formats import Bid, Product, Refused, setup_in
from auction.recount.rules import Auction, Price, activity_limit, take
from tests.lib.setups import OPERATOR, bidder

HIGH = 5 * 10**11  # Above half of the highest price, so a few rounds reach it.


def random_setup(chance: Random) -> dict[str, Any]:
    """A set-up of a few products and bidders.

    If prices are low, many requests have one price point.
    """
    version, low = chance.choice([1, 2]), chance.random() < 0.5
    products: list[dict[str, Any]] = []
    for number in range(chance.randint(1, 6)):
        supply = chance.choice([1, 1, 2, 2, 3, 4, 9])
        opening = chance.choice([1, 3, 7, 10, 20] if low else [1, 100, 999, 10**6, HIGH])
        product = {
            "name": f"P-{number}",
            "units": chance.choice([1, 1, 2, 3, 7, 10]),
            "supply": supply,
            "cap": chance.randint(1, supply),
            "opening": opening,
        }
        granule = {"granule": chance.choice([1, 5, 50, 1000])} if version == 2 else {}
        products.append({**product, **granule})
    whole = sum(product["cap"] * product["units"] for product in products)
    eligibilities = [whole, whole, whole // 2, whole // 3, chance.randint(0, whole)]
    bidders = [
        bidder(f"B_{number}", f"{number:016d}", chance.choice(eligibilities))
        for number in range(chance.randint(2, 12))
    ]
    limit = {"limit": chance.choice([100, 120, 140])} if version == 2 else {}
    return {
        "version": version,
        **limit,
        "requirement": chance.choice([100, 95, 80, 50, 63]),
        "operator": OPERATOR,
        "products": products,
        "bidders": bidders,
    }


def chain_of(
    chance: Random, product: Product, price: Price, demand: int, most: int
) -> list[tuple[int, int]]:
    """The quantities and prices of bids for one product.

    Most maintain demand, or move to another quantity in up to three steps.
    """
    if price.start == price.clock:  # round 1
        return [(chance.randint((most + 1) // 2, most), price.clock)]
    kind = chance.random()
    if kind < 0.03:
        return []
    if kind < 0.55 and demand <= most:
        return [(demand, price.clock)]
    target = chance.choice([0, most, most, chance.randint(0, most)])
    least, greatest = sorted([demand, target])
    between = [quantity for quantity in range(least, greatest + 1) if quantity != demand]
    chosen = chance.sample(between, min(len(between), chance.randint(1, 3)))
    steps = sorted(chosen, reverse=target < demand)
    middle = price.start + (price.clock - price.start) // 2
    points = (
        chance.choice([price.start, middle, price.clock, chance.randint(*price)]) for _ in steps
    )
    prices = sorted(set(points))
    return list(zip(steps[len(steps) - len(prices) :], prices))


def random_sheet(chance: Random, auction: Auction, bidder: int) -> list[Bid]:
    """A sheet that the rules mostly accept."""
    products, demands = auction.setup.products, auction.demands[bidder]
    left = activity_limit(auction.setup, len(auction.rounds) + 1, auction.eligibilities[bidder])
    bids = []
    for place in chance.sample(range(len(products)), len(products)):
        most = max(0, min(products[place].cap, left // products[place].units))
        chain = chain_of(chance, products[place], auction.prices[place], demands[place], most)
        left -= products[place].units * chain[-1][0] if chain else 0
        bids += [Bid(place, *step) for step in chain]
    return bids if chance.random() < 0.8 else spoiled(chance, bids)


def spoiled(chance: Random, bids: list[Bid]) -> list[Bid]:
    """The bids in another order, or with one number or two quantities changed."""
    kind, bids = chance.random(), list(bids)
    if kind < 0.3:
        chance.shuffle(bids)
    elif kind < 0.6 and bids:
        at, field = chance.randrange(len(bids)), chance.choice(Bid._fields)
        number = max(0, getattr(bids[at], field) + chance.choice([-1, 1, 2]))
        bids[at] = bids[at]._replace(**{field: number})
    elif len(bids) > 1:
        at = chance.randrange(len(bids) - 1)
        one, other = bids[at], bids[at + 1]
        bids[at] = one._replace(quantity=other.quantity)
        bids[at + 1] = other._replace(quantity=one.quantity)
    return bids


def random_ties(chance: Random, auction: Auction) -> list[list[int]]:
    """Tie-breaking numbers for all pairs, some, or none. Some numbers occur several times."""
    share = chance.choice([0, 0.5, 1, 1])
    whole = itertools.product(range(len(auction.demands)), range(len(auction.prices)))
    pairs = [pair for pair in whole if chance.random() < share]
    chance.shuffle(pairs)
    return [[*pair, chance.choice([0, 1, 2, chance.randint(0, 2**64 - 1)])] for pair in pairs]


def request(chance: Random, line: str, token: str, value: dict[str, Any]) -> bytes:
    """A request as a client or nginx would send it."""
    items = list(value.items())
    chance.shuffle(items)
    separators = chance.choice([(",", ":"), (", ", ": "), None])
    body = json.dumps(dict(items), separators=separators).encode()
    head = [f"Authorization: Bearer {token}", f"Content-Length: {len(body)}"]
    head += chance.choice([[], ["Host: auction", "Connection: close"]])
    chance.shuffle(head)
    if chance.random() < 0.3:
        head = [each.lower().replace(token.lower(), token) for each in head]
    return "\r\n".join([f"{line} HTTP/1.{chance.choice('01')}", *head, "\r\n"]).encode() + body


def sheet_text(
    chance: Random, auction: Auction, bidder: int, number: int, bids: list[Bid]
) -> bytes:
    """A request with a sheet."""
    value = {"bids": [bid._asdict() for bid in bids], "round": number}
    return request(chance, "PUT /v1/me/bids", auction.setup.bidders[bidder].token, value)


def closing_text(chance: Random, auction: Auction, number: int) -> bytes:
    """A request with a closing, which the rules mostly accept."""

    def increment() -> int:
        return chance.choice([1, 2, 5, 10, 20, 50, 50 if chance.random() < 0.9 else 51])

    increments: dict[str, Any] = {"increments": [increment() for _ in auction.prices]}
    if auction.setup.version == 1:
        increments = {"increment": increment()}
    ties = random_ties(chance, auction)
    if ties and chance.random() < 0.03:
        ties.append(chance.choice([chance.choice(ties), [len(auction.demands), 0, 1]]))
    value = {**increments, "round": number, "ties": ties}
    return request(chance, "POST /v1/close", OPERATOR, value)


@dataclasses.dataclass
class Played:
    """An auction: its set-up document, and the requests.

    `texts` are those that were accepted. `refused` has the others: how many were accepted before
    one, its text, and its code.
    """

    document: bytes
    auction: Auction
    texts: list[bytes] = dataclasses.field(default_factory=list)
    refused: list[tuple[int, bytes, str]] = dataclasses.field(default_factory=list)

    def offer(self, text: bytes) -> bool:
        """Adds a request if the recount accepts it."""
        bidders = {bidder.token: number for number, bidder in enumerate(self.auction.setup.bidders)}
        try:
            take(self.auction, bidders, text)
        except Refused as fault:
            self.refused.append((len(self.texts), text, str(fault)))
            return False
        self.texts.append(text)
        return True


def played(chance: Random) -> Played:
    """An auction of up to 13 rounds, in each of which a bidder sends no sheet, one, or several."""
    document = json.dumps(random_setup(chance), indent=chance.choice([None, 1])).encode()
    game = Played(document, Auction(setup_in(document)))
    auction = game.auction
    for number in range(1, chance.randint(3, 14)):
        senders = []
        for each in range(len(auction.demands)):
            senders += [each] * chance.choice([0, 1, 1, 1, 1, 2])
        chance.shuffle(senders)
        for sender in senders:
            sheets = (random_sheet(chance, auction, sender) for _ in range(4))
            any(game.offer(sheet_text(chance, auction, sender, number, one)) for one in sheets)
        closings = (closing_text(chance, auction, number) for _ in range(3))
        if not any(map(game.offer, closings)) or auction.ended:
            break
    if chance.random() < 0.2:
        number = len(auction.rounds) + chance.choice([0, 1, 2])
        game.offer(sheet_text(chance, auction, 0, number, []))
    return game
