"""The pages' rules find the same first fault as the server, and count activity and eligibility as
it does. 25 random auctions, each with 80 random sheets.
"""
import collections
import dataclasses
import functools
import json
import pathlib
import random
import subprocess
from collections.abc import Callable, Iterator
from typing import Any

import pytest

from tests.lib import setups
from tests.lib.http import answer_to, compact, text_of
from tests.lib.paths import PATHS
from tests.lib.server import Server
from tests.lib.setups import OPERATOR, bidder, product

pytestmark = pytest.mark.needs("node")

AUCTIONS, SHEETS, EACH, ROUNDS = 25, 80, 20, 4
TOKEN = "B" * 20
RIVALS = ["R" * (16 + rival) for rival in range(6)]
JUDGE = pathlib.Path(__file__).with_name("judge.js")
# Each refusal of a sheet that the rules know, except those that only its length or its round make.
CODES = {"price_range", "over_cap", "unknown_product", "keep_price"}
CODES |= {"price_order", "mixed_direction", "over_activity"}

Bids = list[dict[str, int]]
Terms = dict[str, Any]
Judge = Callable[..., Any]


@pytest.fixture(scope="module")
def judge() -> Iterator[Judge]:
    """Asks the pages' rules."""
    pipe = subprocess.PIPE
    child = subprocess.Popen(
        ["node", JUDGE], stdin=pipe, stdout=pipe, text=True, env={"PATH": PATHS}
    )
    assert child.stdin and child.stdout
    questions, answers = child.stdin, child.stdout

    def ask(what: str, **given: Any) -> Any:
        questions.write(json.dumps({"what": what, **given}) + "\n")
        questions.flush()
        return json.loads(answers.readline())

    yield ask
    child.stdin.close()
    child.wait(10)


class Auction:
    """A server of a set-up, as a bidder and the operator see it."""

    def __init__(
        self, program: pathlib.Path, folder: pathlib.Path, document: dict[str, Any]
    ) -> None:
        self.document = document
        file = folder / "setup.json"
        file.write_bytes(compact(document))
        self.server = Server(program, file).ready()

    def ask(self, line: str, token: str = TOKEN, value: object = None) -> dict[str, Any]:
        body = None if value is None else compact(value)
        return json.loads(answer_to(self.server.port, text_of(line, token, body))[1])

    def account(self) -> dict[str, Any]:
        return self.ask("GET /v1/me")

    def put(self, token: str, bids: Bids, number: int) -> dict[str, Any]:
        return self.ask("PUT /v1/me/bids", token, {"bids": bids, "round": number})

    def close(self, number: int, increments: list[int]) -> None:
        closing = {"increments": increments, "round": number, "ties": []}
        assert self.ask("POST /v1/close", OPERATOR, closing).get("closed") == number

    def terms(self) -> Terms | None:
        """What a sheet of the current round is judged by, or None after the end."""
        me, products = self.account(), self.document["products"]
        if me["ended"]:
            return None
        prices = [{"start": each["opening"], "clock": each["opening"]} for each in products]
        if me["round"] > 1:
            page = self.ask(f"GET /v1/rounds/{me['round'] - 1}")
            prices = [{"start": each["posted"], "clock": each["next"]} for each in page["products"]]
        return {
            "round": me["round"],
            "products": products,
            "prices": prices,
            "held": me["demands"],
            "eligibility": me["eligibility"],
            "limit": self.document["limit"],
        }


@dataclasses.dataclass
class Difference:
    """What the pages say, and the server."""

    what: str
    pages: object
    server: object
    bids: Bids


@dataclasses.dataclass
class Played:
    """What was compared in an auction."""

    sheets: int = 0
    closings: int = 0
    answers: collections.Counter[str] = dataclasses.field(default_factory=collections.Counter)
    differences: list[Difference] = dataclasses.field(default_factory=list)

    def compare(self, what: str, pages: object, server: object, bids: Bids) -> None:
        if pages != server:
            self.differences.append(Difference(what, pages, server, bids))


def drawn_setup(chance: random.Random) -> dict[str, Any]:
    """One to four products; the bidder whose sheets are judged, and six rivals that can ask for
    everything.
    """
    products = []
    for number in range(chance.randint(1, 4)):
        supply = chance.randint(1, 4)
        units, cap = chance.randint(1, 9), chance.randint(1, supply)
        opening, granule = chance.randint(1, 300), chance.randint(1, 10)
        name = f"P{number}"
        products.append(product(name, supply, opening, units=units, cap=cap, granule=granule))
    most = sum(each["units"] * each["cap"] for each in products)
    bidders = [bidder("B", TOKEN, chance.randint(0, most + 3))]
    bidders += [bidder(f"R{rival}", token, 10**6) for rival, token in enumerate(RIVALS)]
    return setups.setup(products, bidders, chance.randint(50, 100), limit=chance.randint(100, 140))


def drawn_sheet(chance: random.Random, terms: Terms) -> Bids:
    """Up to six bids, of which most are near what is allowed."""
    count = len(terms["products"])
    bids = []
    for _ in range(chance.randrange(7)):
        place = count if chance.randrange(25) == 0 else chance.randrange(count)
        is_there = place < count
        prices = terms["prices"][place] if is_there else {"start": 1, "clock": 2}
        held = terms["held"][place] if is_there else 0
        cap = terms["products"][place]["cap"] if is_there else 2
        price = drawn_price(chance, prices["start"], prices["clock"])
        over = 1 if chance.randrange(8) else 3
        quantity = chance.randrange(cap + over) if chance.randrange(4) else held
        bids.append({"product": place, "quantity": quantity, "price": max(0, price)})
    return sorted(bids, key=lambda bid: bid["price"]) if chance.randrange(3) else bids


def drawn_price(chance: random.Random, start: int, clock: int) -> int:
    """A price of the round, the clock price, or one that is not of the round."""
    if chance.randrange(4):
        return chance.randint(start, clock)
    if chance.randrange(12):
        return clock
    return clock + chance.randint(1, 3) * (1 if chance.randrange(2) else -clock)


def play_round(
    played: Played, auction: Auction, chance: random.Random, terms: Terms, judge: Judge
) -> None:
    """Sends random sheets, has the rivals bid, closes the round, and compares everything."""
    accepted: Bids = []
    for _ in range(min(EACH, SHEETS - played.sheets)):
        bids = drawn_sheet(chance, terms)
        reply = auction.put(TOKEN, bids, terms["round"])
        faults = judge("faults", terms=terms, bids=bids)
        first = faults[0] if faults else {}
        server = {name: reply[name] for name in ("code", "place") if name in reply}
        played.compare("first fault", first, server, bids)
        played.answers[reply.get("code", "accepted")] += 1
        played.sheets += 1
        accepted = bids if reply.get("accepted") else accepted
    products = terms["products"]
    # The rivals want all blocks of most products, so that the auction continues. Of a product
    # without excess demand, reductions are not applied.
    quiet = -1 if terms["round"] > 1 else chance.randrange(2 * len(products))
    wanted = [
        {
            "product": place,
            "price": terms["prices"][place]["clock"],
            "quantity": 0 if place == quiet else each["cap"],
        }
        for place, each in enumerate(products)
    ]
    for token in RIVALS:
        auction.put(token, wanted, terms["round"])
    auction.close(terms["round"], [chance.randint(5, 50) for _ in products])
    compare_closing(played, auction, terms, accepted, judge)


def compare_closing(
    played: Played, auction: Auction, terms: Terms, accepted: Bids, judge: Judge
) -> None:
    """Compares activity and eligibility with those of the account."""
    me, products = auction.account(), auction.document["products"]
    requirement = auction.document["requirement"]
    activity, before = me["activity"], terms["eligibility"]
    found = judge("activity", products=products, demands=me["demands"])
    played.compare("activity", found, activity, accepted)
    if terms["round"] == 1:
        asked = judge("asked", products=products, bids=accepted)
        played.compare("activity of round 1", asked, activity, accepted)
    given = {"activity": activity, "eligibility": before, "requirement": requirement}
    played.compare("eligibility", judge("eligibility", **given), me["eligibility"], accepted)
    needed = judge("needed", eligibility=before, requirement=requirement)
    keeps = activity >= needed
    played.compare("eligibility is kept", keeps, me["eligibility"] == before, accepted)
    least = judge("least", terms=terms, bids=accepted)
    played.compare("least activity", min(least, activity), least, accepted)
    played.closings += 1


@pytest.fixture(scope="module")
def play(
    program: pathlib.Path, tmp_path_factory: pytest.TempPathFactory, judge: Judge
) -> Callable[[int], Played]:
    """Plays an auction by its number, once."""

    @functools.cache
    def played(number: int) -> Played:
        chance, found = random.Random(number), Played()
        while found.sheets < SHEETS:
            folder = tmp_path_factory.mktemp("rules")
            auction = Auction(program, folder, drawn_setup(chance))
            try:
                for _ in range(ROUNDS):
                    if found.sheets < SHEETS and (terms := auction.terms()):
                        play_round(found, auction, chance, terms, judge)
            finally:
                auction.server.kill()
        return found

    return played


@pytest.mark.parametrize("number", range(AUCTIONS))
def test_sheets_are_judged_as_the_server_judges_them(
    number: int, play: Callable[[int], Played]
) -> None:
    played = play(number)
    assert played.sheets == SHEETS and played.closings > 0
    assert played.differences == []


def test_every_refusal_occurs(play: Callable[[int], Played]) -> None:
    answers: collections.Counter[str] = collections.Counter()
    for number in range(AUCTIONS):
        answers += play(number).answers
    assert CODES | {"accepted"} <= set(answers), answers
    assert answers["accepted"] > 200, answers


def bid(place: int, quantity: int, price: int) -> dict[str, int]:
    return {"product": place, "quantity": quantity, "price": price}


@pytest.mark.parametrize(
    "bids",
    [[bid(1, 2, 110)], [bid(0, 1, 110), bid(1, 1, 110)]],
    ids=["an increase that is too heavy", "a block that stays, and an increase"],
)
def test_the_least_activity_is_reached(
    program: pathlib.Path, tmp_path: pathlib.Path, judge: Judge, bids: Bids
) -> None:
    """A has no excess demand, so its block stays, and 3 unused units are too few for B."""
    products = [
        product("A", 4, units=7, granule=1),
        product("B", 4, units=4, granule=1),
        product("C", 1, granule=1),
    ]
    rivals = [bidder(name, name * 16, 1) for name in ("R", "S")]
    document = setups.setup(products, [bidder("B", TOKEN, 10), *rivals], 50, limit=140)
    auction = Auction(program, tmp_path, document)
    try:
        auction.put(TOKEN, [bid(0, 1, 100)], 1)
        for rival in rivals:
            auction.put(rival["token"], [bid(2, 1, 100)], 1)
        auction.close(1, [10, 10, 10])
        terms = auction.terms()
        assert auction.put(TOKEN, bids, 2).get("accepted")
        auction.close(2, [10, 10, 10])
        assert auction.account()["activity"] == 7
        assert judge("least", terms=terms, bids=bids) == 7
    finally:
        auction.server.kill()
