"""The rules in their most literal form: the list of requests is searched again after each change.

`Mistakes` plants a wrong rule, to see that the comparison with the program finds it.
"""
import dataclasses
from collections.abc import Iterator
from fractions import Fraction

from auction.recount.formats import Bid, Setup, closing_in, json_in, request_in, setup_in, sheet_in


@dataclasses.dataclass(frozen=True)
class Mistakes:
    """Which rules are wrong."""

    searches_once: bool = False  # a request without room is never tried again
    ignores_ties: bool = False
    later_bidder_first: bool = False
    takes_blocks_below_supply: bool = False
    keeps_missing_bids: bool = False  # no bid is a bid to maintain
    posts_the_clock_price: bool = False
    rounds_prices_down: bool = False
    rounds_eligibility_down: bool = False
    ignores_eligibility: bool = False


@dataclasses.dataclass
class Step:
    """A request to change demand by some blocks, of which some are left."""

    order: tuple[Fraction, int, int, int, int]
    bidder: int
    product: int
    sign: int
    left: int
    price: int


class Hand:
    """An auction that is calculated round by round."""

    def __init__(self, setup: Setup, mistakes: Mistakes = Mistakes()) -> None:
        self.setup, self.mistakes = setup, mistakes
        self.start = [product.opening for product in setup.products]
        self.clock = list(self.start)
        self.demand = [[0] * len(setup.products) for _ in setup.bidders]
        self.eligibility = [bidder.eligibility for bidder in setup.bidders]
        self.sheets: dict[int, list[Bid]] = {}
        self.number, self.ended = 1, False
        self.lines: list[str] = []

    def total(self, product: int) -> int:
        return sum(row[product] for row in self.demand)

    def activity(self, bidder: int) -> int:
        units = [product.units for product in self.setup.products]
        return sum(unit * blocks for unit, blocks in zip(units, self.demand[bidder]))

    # ---- Requests

    def steps(self, ties: dict[tuple[int, int], int]) -> Iterator[Step]:
        """All requests to change demand, in any order."""
        for bidder in range(len(self.setup.bidders)):
            bids = self.sheets.get(bidder, [])
            for product in range(len(self.start)):
                own = [bid for bid in bids if bid.product == product]
                if not own and self.mistakes.keeps_missing_bids:
                    continue
                own = own or [Bid(product, 0, self.start[product])]
                yield from self.steps_of(bidder, product, own, ties)

    def steps_of(
        self, bidder: int, product: int, bids: list[Bid], ties: dict[tuple[int, int], int]
    ) -> Iterator[Step]:
        before = self.demand[bidder][product]
        start, clock = self.start[product], self.clock[product]
        tie = 0 if self.mistakes.ignores_ties else ties.get((bidder, product), 0)
        place_of_bidder = -bidder if self.mistakes.later_bidder_first else bidder
        for place, bid in enumerate(bids):
            change = bid.quantity - before
            before = bid.quantity
            if change:
                point = Fraction(bid.price - start, clock - start)
                order = (point, tie, place_of_bidder, product, place)
                sign = 1 if change > 0 else -1
                yield Step(order, bidder, product, sign, abs(change), bid.price)

    def room(self, step: Step) -> int:
        """How many blocks of a request can be applied now."""
        if step.sign < 0:
            above = self.total(step.product) - self.setup.products[step.product].supply
            return (
                step.left
                if self.mistakes.takes_blocks_below_supply
                else min(step.left, max(0, above))
            )
        unused = self.eligibility[step.bidder] - self.activity(step.bidder)
        if self.mistakes.ignores_eligibility:
            return step.left
        return min(step.left, unused // self.setup.products[step.product].units)

    def process(self, ties: dict[tuple[int, int], int]) -> dict[int, int]:
        """Admits each request in order, and after each change searches all admitted ones again.

        Returns the highest price of a reduction that was applied, by product.
        """
        admitted, highest = list[Step](), dict[int, int]()
        for step in sorted(self.steps(ties), key=lambda one: one.order):
            admitted.append(step)
            searched = [step] if self.mistakes.searches_once else admitted
            while found := next((one for one in searched if self.room(one)), None):
                blocks = self.room(found)
                self.demand[found.bidder][found.product] += found.sign * blocks
                found.left -= blocks
                if found.sign < 0:
                    highest[found.product] = max(found.price, highest.get(found.product, 0))
        return highest

    # ---- A closing

    def close(self, increments: list[int], ties: dict[tuple[int, int], int]) -> None:
        """Closes the round, and adds its lines."""
        highest: dict[int, int] = {}
        if self.number == 1:
            for bidder, bids in self.sheets.items():
                for bid in bids:
                    self.demand[bidder][bid.product] = bid.quantity
        else:
            highest = self.process(ties)
        products = self.setup.products
        totals = [self.total(place) for place in range(len(products))]
        self.ended = all(total <= one.supply for total, one in zip(totals, products))
        self.lines.append(f"round {self.number}")
        for place, product in enumerate(products):
            self.post(place, totals[place], increments[place], highest.get(place))
        for bidder in range(len(self.setup.bidders)):
            active = self.activity(bidder) * 100
            needed = active // self.setup.requirement
            if active % self.setup.requirement and not self.mistakes.rounds_eligibility_down:
                needed += 1
            self.eligibility[bidder] = min(self.eligibility[bidder], needed)
        self.number, self.sheets = self.number + 1, {}

    def post(self, place: int, total: int, increment: int, highest: int | None) -> None:
        """Posts the price of a product, and sets the prices of the next round."""
        product, start, clock = self.setup.products[place], self.start[place], self.clock[place]
        is_above = total > product.supply
        posted = clock if is_above or self.mistakes.posts_the_clock_price else highest or start
        raised, step = posted * (100 + increment), 100 * product.granule
        after = raised // step * product.granule
        if raised % step and not self.mistakes.rounds_prices_down:
            after += product.granule
        shown = total if is_above else "-"
        end = "-" if self.ended else after
        self.lines.append(f"{product.name} {start} {clock} {posted} {shown} {end}")
        self.start[place], self.clock[place] = posted, after


def lines_by_hand(
    document: bytes, texts: list[bytes], mistakes: Mistakes = Mistakes()
) -> list[str]:
    """The lines of each closed round, and of each bidder at the end, as the audit prints them."""
    setup = setup_in(document)
    hand = Hand(setup, mistakes)
    bidders = {bidder.token: place for place, bidder in enumerate(setup.bidders)}
    for text in texts:
        request = request_in(text)
        value = json_in(request.body)
        if request.method == b"PUT":
            hand.sheets[bidders[request.token]] = sheet_in(value).bids
            continue
        closing = closing_in(value, setup)
        hand.close(closing.increments, {(one, two): tie for one, two, tie in closing.ties})
    if hand.ended:
        for bidder, row in zip(setup.bidders, hand.demand):
            pays = sum(blocks * price for blocks, price in zip(row, hand.start))
            hand.lines.append(f"won {bidder.name} {' '.join(map(str, row))} {pays}")
    return hand.lines
