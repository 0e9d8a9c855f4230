"""docs/rules.md as a program, in the order of that document; formats.py is docs/formats.md.

Both need only Python, and share nothing with the server: their author wrote them from these two
documents.
"""
import hashlib
import heapq
from collections import defaultdict
from collections.abc import Iterator
from fractions import Fraction
from typing import NamedTuple

from .formats import Bid, Product, Setup, setup_in
from .formats import Refused, closing_in, json_in, records_in, request_in, require, sheet_in

HIGHEST_PRICE = 10**12
MOST_BIDS, MOST_TIES = 8_192, 16_384


def up(numerator: int, denominator: int) -> int:
    """A quotient, rounded up."""
    return -(-numerator // denominator)


# ---- Prices


class Price(NamedTuple):
    """The prices of a product in a round."""

    start: int
    clock: int


def raised(start: int, increment: int, granule: int) -> int:
    """The start-of-round price plus the increment, rounded up to a multiple of the granule."""
    return up(start * (100 + increment), 100 * granule) * granule


# ---- Bids

Chains = dict[int, list[Bid]]


def chains_of(bids: list[Bid]) -> Chains:
    """The bids of a sheet by product, in the order given."""
    chains: Chains = defaultdict(list)
    for bid in bids:
        chains[bid.product].append(bid)
    return chains


# ---- Activity. Demands are one bidder's, by product.


def activity(products: list[Product], demands: list[int]) -> int:
    """The blocks times bidding units, added up."""
    return sum(product.units * demand for product, demand in zip(products, demands))


def requested_demands(products: list[Product], bids: list[Bid]) -> list[int]:
    """The last quantity of each chain. A product without a bid counts 0."""
    demands = [0] * len(products)
    for bid in bids:
        demands[bid.product] = bid.quantity
    return demands


def activity_limit(setup: Setup, number: int, eligibility: int) -> int:
    """The most requested activity of a sheet for this round."""
    return eligibility if number == 1 else eligibility * setup.limit // 100


# ---- What is refused


def check_sheet(
    products: list[Product], prices: list[Price], demands: list[int], limit: int, bids: list[Bid]
) -> None:
    """Refuses a sheet for its first fault. Requires the bidder's processed demands."""
    require(len(bids) <= MOST_BIDS, "too_many")
    chains: Chains = defaultdict(list)
    for bid in bids:
        require(bid.product < len(products), "unknown_product")
        check_bid(
            products[bid.product],
            prices[bid.product],
            demands[bid.product],
            chains[bid.product],
            bid,
        )
        chains[bid.product].append(bid)
    require(activity(products, requested_demands(products, bids)) <= limit, "over_activity")


def check_bid(product: Product, price: Price, demand: int, earlier: list[Bid], bid: Bid) -> None:
    """Refuses a bid for its first fault.

    The earlier bids are those of the sheet for this product.
    """
    require(price.start <= bid.price <= price.clock, "price_range")
    require(bid.quantity <= product.cap, "over_cap")
    if earlier:
        before, rises = earlier[-1], earlier[0].quantity > demand
        require(before.price < bid.price, "price_order")
        require(
            bid.quantity > before.quantity if rises else bid.quantity < before.quantity,
            "mixed_direction",
        )
    elif bid.quantity == demand:
        require(bid.price == price.clock, "keep_price")


def check_ties(setup: Setup, ties: list[list[int]]) -> None:
    """Refuses a list of tie-breaking numbers for its first fault."""
    require(len(ties) <= MOST_TIES, "too_many_ties")
    pairs: set[tuple[int, int]] = set()
    for bidder, product, _number in ties:
        require(bidder < len(setup.bidders) and product < len(setup.products), "tie_range")
        require((bidder, product) not in pairs, "tie_repeated")
        pairs.add((bidder, product))


# ---- Bid processing, from round 2


class Request(NamedTuple):
    """A request to change a bidder's demand for a product.

    The first five fields are the order of processing.
    """

    point: Fraction
    tie: int
    bidder: int
    product: int
    place: int
    change: int
    price: int


Ties = dict[tuple[int, int], int]


def requests_of(
    bidder: int, bids: list[Bid], demands: list[int], prices: list[Price], ties: Ties
) -> Iterator[Request]:
    """The requests of a sheet.

    A missing bid is a request to reduce demand to 0 at the start-of-round price.
    """
    chains = chains_of(bids)
    for product, (start, clock) in enumerate(prices):
        demand = demands[product]
        for place, bid in enumerate(chains.get(product, [Bid(product, 0, start)])):
            if bid.quantity != demand:
                point = Fraction(bid.price - start, clock - start)
                tie = ties.get((bidder, product), 0)
                yield Request(point, tie, bidder, product, place, bid.quantity - demand, bid.price)
            demand = bid.quantity


class Board:
    """The demands of all bidders during bid processing."""

    def __init__(
        self, products: list[Product], eligibilities: list[int], demands: list[list[int]]
    ) -> None:
        self.units = [product.units for product in products]
        self.demands = [list(row) for row in demands]
        self.excess = [
            sum(row[p] for row in demands) - product.supply for p, product in enumerate(products)
        ]
        self.unused = [most - activity(products, row) for most, row in zip(eligibilities, demands)]
        self.highest: dict[int, int] = {}  # By product, the highest price of an applied reduction.

    def room(self, request: Request, left: int) -> int:
        """The number of the `left` blocks of a request that can be applied now."""
        if request.change < 0:
            return min(left, max(0, self.excess[request.product]))
        return min(left, self.unused[request.bidder] // self.units[request.product])

    def apply(self, request: Request, blocks: int) -> None:
        """Applies this number of blocks of a request."""
        if request.change < 0:
            self.highest[request.product] = max(request.price, self.highest.get(request.product, 0))
            blocks = -blocks
        self.demands[request.bidder][request.product] += blocks
        self.excess[request.product] += blocks
        self.unused[request.bidder] -= blocks * self.units[request.product]


def process(board: Board, requests: list[Request]) -> None:
    """Admits the requests in order.

    While an admitted one has room, applies the first such by its whole room.

    The rules search the whole list again after each application. The result is the same here: a
    reduction without room has room again only after an increase for its product, and an increase
    only after a reduction of its bidder. Until then it waits, with its product or its bidder.
    """
    ordered = sorted(requests)
    left = [abs(request.change) for request in ordered]
    reductions: dict[int, list[int]] = defaultdict(list)
    increases: dict[int, list[int]] = defaultdict(list)
    for admitted in range(len(ordered)):
        searched = [admitted]  # A heap of indices in the order.
        while searched:
            first = heapq.heappop(searched)
            request = ordered[first]
            blocks = board.room(request, left[first])
            if blocks:
                board.apply(request, blocks)
                left[first] -= blocks
                reduces = request.change < 0
                for other in (
                    increases.pop(request.bidder, [])
                    if reduces
                    else reductions.pop(request.product, [])
                ):
                    heapq.heappush(searched, other)
            if left[first]:
                (
                    reductions[request.product] if request.change < 0 else increases[request.bidder]
                ).append(first)


# ---- After a round


class Line(NamedTuple):
    """The results of a round for a product.

    There is no next clock price if the auction has ended.
    """

    start: int
    clock: int
    posted: int
    demand: int
    next: int | None


class Slip(NamedTuple):
    """The results of a round for a bidder."""

    activity: int
    eligibility: int
    demands: list[int]


class Round(NamedTuple):
    """A closed round, with the sheets in force at its closing, by bidder."""

    lines: list[Line]
    slips: list[Slip]
    sheets: dict[int, list[Bid]]
    increments: list[int]
    ended: bool


def next_eligibility(eligibility: int, active: int, requirement: int) -> int:
    """The least number whose required percentage is at least the activity.

    It is at most the old eligibility.
    """
    return min(eligibility, up(active * 100, requirement))


# ---- Rounds


class Auction:
    """The rounds of an auction.

    It applies each accepted sheet and closing in order, and refuses any other.
    """

    def __init__(self, setup: Setup) -> None:
        self.setup = setup
        self.prices = [Price(product.opening, product.opening) for product in setup.products]
        self.demands = [[0] * len(setup.products) for _ in setup.bidders]
        self.eligibilities = [bidder.eligibility for bidder in setup.bidders]
        self.sheets: dict[int, list[Bid]] = {}
        self.rounds: list[Round] = []

    @property
    def ended(self) -> bool:
        return bool(self.rounds) and self.rounds[-1].ended

    def check_round(self, number: int) -> None:
        """Refuses a request for another round than the current one."""
        require(not self.ended, "ended")
        require(number == len(self.rounds) + 1, "wrong_round")

    def put(self, bidder: int, number: int, bids: list[Bid]) -> None:
        """Accepts a sheet, which replaces the bidder's sheet in force, or refuses it."""
        self.check_round(number)
        limit = activity_limit(self.setup, number, self.eligibilities[bidder])
        check_sheet(self.setup.products, self.prices, self.demands[bidder], limit, bids)
        self.sheets[bidder] = bids

    def close(self, number: int, increments: list[int], ties: list[list[int]]) -> None:
        """Closes a round, or refuses the closing. Requires an increment for each product."""
        self.check_round(number)
        require(
            len(increments) == len(self.prices) and all(1 <= each <= 50 for each in increments),
            "increment",
        )
        check_ties(self.setup, ties)
        board = Board(self.setup.products, self.eligibilities, self.demands)
        if number == 1:
            for bidder, bids in self.sheets.items():
                board.demands[bidder] = requested_demands(self.setup.products, bids)
        else:
            process(
                board,
                list(self.requests({(bidder, product): tie for bidder, product, tie in ties})),
            )
        self.end_round(board, increments)

    def requests(self, ties: Ties) -> Iterator[Request]:
        """All requests of the round. No sheet counts as an empty sheet."""
        for bidder, demands in enumerate(self.demands):
            yield from requests_of(bidder, self.sheets.get(bidder, []), demands, self.prices, ties)

    def end_round(self, board: Board, increments: list[int]) -> None:
        """Posts prices, lowers eligibilities, and begins the next round or ends the auction."""
        products, demands = self.setup.products, board.demands
        totals = [sum(row[p] for row in demands) for p in range(len(products))]
        ended = all(total <= product.supply for total, product in zip(totals, products))
        lines = []
        for p, (product, (start, clock)) in enumerate(zip(products, self.prices)):
            posted = clock if totals[p] > product.supply else board.highest.get(p, start)
            following = None if ended else raised(posted, increments[p], product.granule)
            require(following is None or following <= HIGHEST_PRICE, "price_limit")
            lines.append(Line(start, clock, posted, totals[p], following))
        active = [activity(products, row) for row in demands]
        eligibilities = [
            next_eligibility(*pair, self.setup.requirement)
            for pair in zip(self.eligibilities, active)
        ]
        slips = [Slip(*slip) for slip in zip(active, eligibilities, demands)]
        self.rounds.append(Round(lines, slips, self.sheets, increments, ended))
        self.demands, self.eligibilities, self.sheets = demands, eligibilities, {}
        self.prices = [Price(line.posted, line.next or line.posted) for line in lines]


# ---- The requests of a journal


def take(auction: Auction, bidders: dict[str, int], text: bytes) -> None:
    """Applies a request as a bidder's sheet or as the operator's closing.

    `bidders` has bidders' numbers by token.
    """
    method, path, token, body = request_in(text)
    require((method, path) in ((b"PUT", b"/v1/me/bids"), (b"POST", b"/v1/close")), "no_page")
    require(token in bidders or token == auction.setup.operator, "token")
    require((token in bidders) == (method == b"PUT"), "role")
    try:
        value = json_in(body)
    except ValueError:
        raise Refused("bad_json") from None
    if method == b"PUT":
        sheet = sheet_in(value)
        auction.put(bidders[token], sheet.round, sheet.bids)
    else:
        closing = closing_in(value, auction.setup)
        auction.close(closing.round, closing.increments, closing.ties)


class Recount(NamedTuple):
    """A recounted auction: its rounds, each closing's digest, its requests, and the last digest."""

    auction: Auction
    closings: list[str]
    texts: int
    digest: str


def recounted(document: bytes, journal: bytes) -> Recount:
    """The auction of a set-up document and a journal."""
    auction, closings = Auction(setup_in(document)), list[str]()
    texts, digest = 0, hashlib.sha256(document).hexdigest()
    bidders = {bidder.token: number for number, bidder in enumerate(auction.setup.bidders)}
    for place, text, digest in records_in(document, journal):
        try:
            take(auction, bidders, text)
        except Refused:
            raise Refused(f"journal_refused {place}") from None
        texts += 1
        closings += [digest] * (len(auction.rounds) - len(closings))
    return Recount(auction, closings, texts, digest)


# ---- The report


def report(counted: Recount) -> Iterator[str]:
    """The lines of all closed rounds, and after the end of what each bidder has won and pays."""
    setup, rounds = counted.auction.setup, counted.auction.rounds
    for number, (closed, digest) in enumerate(zip(rounds, counted.closings), 1):
        yield f"round {number}"
        for product, line in zip(setup.products, closed.lines):
            demand = line.demand if line.demand > product.supply else "-"
            prices = f"{line.start} {line.clock} {line.posted}"
            yield f"{product.name} {prices} {demand} {line.next or '-'}"
        yield f"closed {number} {digest}"
    if counted.auction.ended:
        for bidder, slip in zip(setup.bidders, rounds[-1].slips):
            pay = sum(blocks * line.posted for blocks, line in zip(slip.demands, rounds[-1].lines))
            yield f"won {bidder.name} {' '.join(map(str, slip.demands))} {pay}"
    yield f"journal {counted.texts} {counted.digest}"
