"""Entries that are not submitted survive a reload, and leaving with them is asked about."""
import pytest

from tests.browser import scripts
from tests.browser.auction import Auction, X, Y, bid, example
from tests.browser.conftest import Begin
from tests.browser.people import enter
from tests.browser.window import Window


@pytest.fixture
def auction(begin: Begin) -> Auction:
    return begin(example("one_product"))


def enter_again(window: Window, token: str = X) -> None:
    window.reload()
    window.at("token").send_keys(token)
    window.find("#door button").click()
    window.until("the form for the token is gone", lambda: not window.is_seen("door"))


def kept(window: Window) -> str:
    return window.run("return sessionStorage.draft ?? ''")


def test_leaving_with_entries_that_are_not_submitted_asks(auction: Auction, x: Window) -> None:
    enter(auction, x)
    assert not x.run(scripts.LEAVE)
    x.bid(0, 2, 100)
    assert x.run(scripts.LEAVE)
    x.send("1 bid in force since")
    assert not x.run(scripts.LEAVE)


def test_entries_are_back_after_a_reload(auction: Auction, x: Window) -> None:
    enter(auction, x)
    x.bid(0, 1, 100)
    x.until("the draft is kept", lambda: '"rows":[[0,[["1","100"]]]]' in kept(x))
    enter_again(x)
    x.says("message", "are back. They are not submitted.")
    assert (x.value("quantity", 0), x.value("price", 0)) == ("1", "100")
    x.click("undo")
    x.becomes(lambda: x.value("quantity", 0), "")


def test_a_draft_is_forgotten_once_it_is_in_force(auction: Auction, x: Window) -> None:
    enter(auction, x)
    x.bid(0, 1, 100)
    x.until("the draft is kept", lambda: kept(x))
    x.send("1 bid in force since")
    x.becomes(lambda: kept(x), "")


def test_another_bidder_does_not_get_the_draft(auction: Auction, x: Window) -> None:
    enter(auction, x)
    x.bid(0, 1, 100)
    x.until("the draft is kept", lambda: kept(x))
    enter_again(x, Y)
    assert x.value("quantity", 0) == ""
    assert "are back" not in x.text("message")


def test_a_draft_of_an_earlier_round_is_offered_without_its_prices(
    auction: Auction, x: Window
) -> None:
    auction.put(X, 1, bid(0, 2, 100))
    auction.put(Y, 1, bid(0, 1, 100))
    enter(auction, x)
    x.bid(0, 1, 100)
    x.until("the draft is kept", lambda: kept(x))
    x.open("about:blank")
    auction.close(1)
    enter(auction, x)
    x.says("message", "This tab has entries for round 1, which is closed.")
    assert x.value("quantity", 0) == "2"
    x.menu("old")
    x.becomes(lambda: (x.value("quantity", 0), x.value("price", 0)), ("1", ""))
