"""The operator closes rounds by the page: increments, refusals, closings elsewhere, and seeds."""
import json

import pytest
from selenium.webdriver.common.keys import Keys

from auction.formats.ties import Commitment, check_ties
from tests.browser.auction import Auction, X, Y, bid, example
from tests.browser.conftest import Begin
from tests.browser.people import close_round, confirm, enter, totals
from tests.browser.window import Window
from tests.lib.setups import OPERATOR


@pytest.fixture(scope="module")
def shared(begin_once: Begin) -> Auction:
    """An auction in which no round is closed."""
    return begin_once(example("one_product"))


@pytest.mark.parametrize("typed", ["", "0", "51", "1.5", "ten"])
def test_what_is_no_increment_closes_nothing(shared: Auction, operator: Window, typed: str) -> None:
    enter(shared, operator, OPERATOR)
    operator.write("increment", typed)
    operator.click("ask")
    operator.says("say", "Not closed: an increment is not 1 to 50")
    assert not operator.is_seen("question")


# ---- Prices that are too high, and an auction that is over


@pytest.fixture
def steep(begin: Begin) -> Auction:
    setup = example("one_product")
    setup["products"][0]["opening"] = 10**12
    return begin(setup)


def test_a_price_that_would_be_too_high_is_refused(steep: Auction, operator: Window) -> None:
    steep.put(X, 1, bid(0, 2, 10**12))
    steep.put(Y, 1, bid(0, 1, 10**12))
    enter(steep, operator, OPERATOR)
    close_round(operator)
    words = "would be above 10^12 dollars: use a smaller increment (A). Nothing was closed."
    operator.says("say", words)
    assert operator.text("round") == "Round 1"


def test_prices_may_have_signs_and_commas(steep: Auction, x: Window) -> None:
    enter(steep, x)
    x.bid(0, 2, "$1,000,000,000,000")
    x.send("1 bid in force since")


def test_after_the_end_closings_and_bids_are_refused(
    steep: Auction, x: Window, operator: Window
) -> None:
    enter(steep, x)
    enter(steep, operator, OPERATOR)
    x.bid(0, 0, 10**12)
    x.deaf()
    operator.deaf()
    steep.close(1)
    close_round(operator)
    operator.says("say", "Refused: the auction is over")
    x.send("Refused: the auction is over")


# ---- Rounds that are closed elsewhere


@pytest.fixture
def first_round(begin: Begin) -> Auction:
    auction = begin(example("one_product"))
    auction.put(X, 1, bid(0, 2, 100))
    auction.put(Y, 1, bid(0, 1, 100))
    return auction


def second_round(auction: Auction) -> None:
    auction.close(1)
    auction.put(X, 2, bid(0, 2, 110))
    auction.put(Y, 2, bid(0, 1, 110))


def test_the_question_goes_away_if_the_round_is_closed_elsewhere(
    first_round: Auction, x: Window, operator: Window
) -> None:
    enter(first_round, x)
    enter(first_round, operator, OPERATOR)
    operator.click("ask")
    first_round.close(1)
    operator.says("say", "Round 1 is closed")
    assert not operator.is_seen("question")
    for window in (x, operator):
        window.says("round", "Round 2")


def test_a_closing_and_bids_for_a_closed_round_are_refused(
    first_round: Auction, y: Window, operator: Window
) -> None:
    second_round(first_round)
    enter(first_round, y, Y)
    enter(first_round, operator, OPERATOR)
    y.deaf()
    operator.deaf()
    operator.click("ask")
    operator.until("it is asked about", lambda: operator.is_seen("question"))
    first_round.close(2)
    confirm(operator)
    operator.says("say", "Refused: another round is the current one")
    y.bid(0, 0, 110)
    y.send("Refused: another round is the current one")
    assert "in force" not in y.text("message")


@pytest.mark.parametrize("commitment", ["a chain", "none"])
def test_a_closing_that_may_need_a_seed_is_not_made_by_the_page(
    first_round: Auction, operator: Window, commitment: str
) -> None:
    second_round(first_round)
    file = first_round.folder / "public/commitment.json"
    chain = '{"draw":"","end":"%s","length":10000}' % ("0" * 64)
    text = file.read_text().replace("null", chain)
    file.unlink()
    if commitment == "a chain":
        file.write_text(text)
    enter(first_round, operator, OPERATOR)
    operator.click("ask")
    operator.says("say", "⚠ Not closed: round 2 needs tie-breaking numbers from its seed")
    assert not operator.is_seen("question")


# ---- An increment for each product, and an activity limit above eligibility


@pytest.fixture
def limited(begin: Begin) -> Auction:
    """Version 2: an activity limit of 125 percent, and products of 1 and 3 units."""
    setup = example("two_products")
    setup.update(version=2, requirement=50, limit=125)
    setup["bidders"][0]["eligibility"] = 6
    for product, units in zip(setup["products"], (1, 3)):
        product.update(units=units, granule=1)
    auction = begin(setup)
    auction.put(X, 1, bid(0, 2, 100))
    auction.put(Y, 1, bid(0, 1, 100))
    return auction


def increments(operator: Window) -> None:
    """Types 20 for the first product, and leaves the second one to the increment for all."""
    operator.at("each").click()
    operator.find("#incbody input").send_keys("20")


def test_each_product_may_have_its_increment(limited: Auction, operator: Window) -> None:
    enter(limited, operator, OPERATOR)
    increments(operator)
    second = operator.find("#incbody tr:nth-of-type(2) input")
    second.send_keys("77")
    operator.click("ask")
    operator.says("say", "Not closed: an increment is not 1 to 50")
    second.send_keys(Keys.BACKSPACE * 2)
    close_round(operator)
    operator.says("say", "Round 1 is closed")
    operator.becomes(lambda: operator.column("next", "pastbody"), ["$120", "$110"])


def test_the_question_has_the_range_of_increments(limited: Auction, operator: Window) -> None:
    enter(limited, operator, OPERATOR)
    increments(operator)
    operator.click("ask")
    operator.says("asked", "Clock prices rise by 10 to 20 percent.")
    operator.says("asked", "This page does not know who has submitted bids.")


def test_a_round_is_closed_once_at_a_time(limited: Auction, operator: Window) -> None:
    enter(limited, operator, OPERATOR)
    with operator.held(False):
        close_round(operator)
        operator.says("say", "Closing round 1 …")
        operator.click("ask")
        operator.says("say", "already being closed")
        assert not operator.is_seen("question")
    operator.says("say", "Round 1 is closed")


def test_activity_above_eligibility_is_allowed_up_to_the_limit(limited: Auction, x: Window) -> None:
    """125 percent of 4 is an activity of 5. An activity of 2 is enough to keep 4."""
    limited.ask("v1/close", {"round": 1, "increments": [20, 10], "ties": []})
    enter(limited, x)
    x.bid(0, 2, 120)
    x.bid(1, 2, 110)
    x.says("message", "more activity than the limit")
    assert totals(x)["Activity"].startswith("8 of 5")
    x.bid(1, 1, 110)
    x.until("that is no fault", lambda: "limit" not in x.text("message"))
    assert totals(x)["Activity"].startswith("5 of 5")
    assert totals(x)["Eligibility after"] == "4 · now 4"
    x.send("2 bids in force since")


# ---- Closings with numbers from a seed


def close_by_desk(auction: Auction, operator: Window, number: int) -> None:
    """Closes a round at the desk: the second person confirms it."""
    close_round(operator)
    operator.says("say", "It waits for a second person")
    auction.confirm(number)


@pytest.mark.parametrize(
    "publish",
    [0, pytest.param(30, marks=pytest.mark.slow)],
    ids=["results at once", "results after 30 seconds"],
)
def test_the_conductor_closes_what_two_people_at_the_desk_ask_for(
    begin: Begin, operator: Window, publish: int
) -> None:
    """Three rounds: the first by the page itself, the others by the conductor."""
    auction = begin(example("one_product"), has_ties=True)
    enter(auction, operator, OPERATOR)
    for number, price in ((1, 100), (2, 110)):
        auction.put(X, number, bid(0, 2, price))
        auction.put(Y, number, bid(0, 1, price))
        if number == 1:
            close_round(operator)
            operator.says("say", "Round 1 is closed. The current round is 2.")
    operator.click("ask")
    operator.says("say", "⚠ Not closed: round 2 needs tie-breaking numbers from its seed.")
    assert not operator.is_seen("question")
    auction.begin_conductor(publish)
    auction.begin_desk()
    enter(auction, operator, OPERATOR)
    operator.says("waits", "Conductor: Round 2 has no window.")
    operator.says("missing", "All bidders with eligibility have submitted bids.")
    close_by_desk(auction, operator, 2)
    operator.says("say", "Round 2 is closed. The current round is 3.")
    operator.says("waits", "Conductor: Round 3 has no window.")
    operator.says("missing", "No bids from: X, Y.")
    operator.noted()
    close_by_desk(auction, operator, 3)
    assert "NO bidder has submitted bids" in operator.text("asked")
    operator.says("say", "Round 3 is closed. The auction has ended.")
    sent = json.loads(operator.run("return window.sent[0]"))
    assert (sent["act"], sent["round"], sent["typed"]) == ("close", 3, "3")
    assert sent["given"] == {"increments": [10], "without_sheets": True}
    last = auction.folder / "public/rounds/3.json"
    operator.until("round 3 is published", last.exists)
    chain = Commitment.read(auction.folder / "public/commitment.json").chain
    for number in (1, 2, 3):
        page = json.loads(last.with_name(f"{number}.json").read_text())
        closing = json.loads((auction.folder / f"kept/closing-{number}.json").read_text())
        check_ties(chain, number, bytes.fromhex(page["seed"]), closing["ties"], 2, 1)
        assert len(closing["ties"]) == (0 if number == 1 else 2)
