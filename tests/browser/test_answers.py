"""What the bidder's page says if the server is slow or gone, if answers are lost, if pages are
withheld, if bids come another way, and to unknown tokens.
"""
import datetime
import re

import pytest
from selenium.webdriver.common.keys import Keys

from tests.browser import scripts
from tests.browser.auction import OPERATORS, Auction, X, Y, bid, busy, example
from tests.browser.conftest import Begin
from tests.browser.people import enter
from tests.browser.window import Window
from tests.lib.setups import OPERATOR

UNKNOWN = "It is not known whether your bids were accepted"
IN_FORCE = "Your bids are in force. Nothing is left to do."


@pytest.fixture
def auction(begin: Begin) -> Auction:
    return begin(example("two_products"))


def is_connected(window: Window) -> bool:
    return window.text("link") == "Connected"


# ---- A server that is gone


def test_a_server_that_is_gone_is_reported_and_asked_less_often(
    auction: Auction, x: Window
) -> None:
    enter(auction, x)
    x.noted()
    x.until("the status is asked for", lambda: len(x.run("return window.asks")) > 4)
    auction.end_server()
    x.until("it is reported", lambda: re.match(r"No answer since .* Retrying\.", x.text("link")))
    x.says("todo", "Wait: the state of the round is not known")
    before = x.run("return window.asks")
    x.until("it is asked again", lambda: len(x.run("return window.asks")) > len(before))
    after = x.run("return window.asks")
    fast = min(later - earlier for earlier, later in zip(before, before[1:])) / 1000
    slow = (after[len(before)] - before[-1]) / 1000
    assert 0.9 < fast < 2 * busy(), "each second"
    assert 4.9 < slow < 10 * busy(), "each five seconds without an answer"


def test_bids_without_an_answer_are_not_known_until_the_server_is_back(
    auction: Auction, x: Window
) -> None:
    enter(auction, x)
    x.bid(1, 1, 100)
    auction.end_server()
    x.until("it is reported", lambda: not is_connected(x))
    x.send(UNKNOWN)
    auction.begin()
    x.until("a server that is back is noticed", lambda: is_connected(x))
    x.says("message", "Your bids did not arrive. None are in force. Submit again.")
    assert x.value("quantity", 1) == "1", "the form is unchanged"
    x.send("1 bid in force since")


def test_a_server_that_is_started_again_has_its_bids(auction: Auction, x: Window) -> None:
    auction.put(X, 1, bid(0, 1, 100), bid(1, 1, 100))
    auction.kill()
    enter(auction, x)
    x.says("force", "2 bids in force, as of")
    assert x.value("quantity", 1) == "1"


@pytest.mark.parametrize("page", ["null", "[]", '{"status":200}'])
def test_another_answer_than_the_servers_is_none(auction: Auction, x: Window, page: str) -> None:
    enter(auction, x)
    x.bid(0, 1, 100)
    x.deaf()
    x.run(scripts.ANSWERED, page)
    x.send(UNKNOWN)


def test_bids_whose_answer_was_lost_are_found_in_force(auction: Auction, x: Window) -> None:
    enter(auction, x)
    x.bid(0, 1, 100)
    x.run(scripts.ANSWERED, "null")
    auction.put(X, 1, bid(0, 1, 100))  # as if it had arrived
    x.submit()
    x.says("message", "Your bids did arrive: 1 bid in force.")
    x.says("todo", IN_FORCE)


# ---- A server that is slow


def test_a_slow_answer_is_named_after_three_seconds(auction: Auction, x: Window) -> None:
    auction.put(X, 1, bid(0, 1, 100))
    enter(auction, x)
    x.says("todo", IN_FORCE)
    x.run(scripts.SLOW)
    words = re.compile(r"No answer since (\d\d:\d\d:\d\d)\. The round may be closing\.")
    x.until("a slow answer is named", lambda: words.match(x.text("link")))
    found = words.match(x.text("link"))
    assert found
    texts = (x.run("return window.named"), found[1])
    named, since = (datetime.datetime.strptime(text, "%H:%M:%S") for text in texts)
    waited = (named - since).seconds
    assert 3 <= waited < 5 * busy()
    x.says("todo", "Wait: the state of the round is not known")
    assert x.kind("todo") == "bad", "no line is green"
    x.run("window.let_go()")
    x.until("an answer that came is noticed", lambda: is_connected(x))
    x.becomes(lambda: x.kind("todo"), "done")


def test_one_submission_is_sent_at_a_time(auction: Auction, x: Window) -> None:
    enter(auction, x)
    x.bid(0, 1, 100)
    with x.held(True):
        x.submit()
        x.becomes(lambda: x.run("return window.holds"), 1)
        x.says("message", "Sending 1 bid …")
        x.bid(0, 0, 100)
        x.click("undo")
        x.chord(Keys.CONTROL, Keys.ENTER)
        assert x.text("send") == "Sending …"
        assert x.run("return window.holds") == 1
    x.says("message", "in force since")


def test_an_answer_may_come_after_its_round_was_closed(auction: Auction, x: Window) -> None:
    auction.put(Y, 1, bid(0, 2, 100))
    enter(auction, x)
    x.bid(0, 1, 100)
    with x.held(True):
        x.submit()
        x.becomes(lambda: x.run("return window.holds"), 1)
        auction.close(1)
        x.says("message", "Round 1 is closed")
    x.says("message", "1 bid accepted for round 1, which is closed by now.")
    x.view("past")
    x.becomes(lambda: x.cells("pastbody")[0][6:8], ["1 at $100", "1"])


# ---- Pages that are withheld


def test_a_round_that_is_closing_is_no_outage(auction: Auction, x: Window) -> None:
    auction.put(X, 1, bid(0, 1, 100))
    auction.put(Y, 1, bid(0, 2, 100))
    enter(auction, x)
    auction.withhold()
    x.says("todo", "The round is closing; its results follow.")
    assert (x.kind("todo"), x.text("link")) == ("off", "Connected")
    auction.close(1)
    x.says("todo", "The round is closing")
    assert x.text("round") == "Round 1" and is_connected(x)
    auction.show()
    x.says("round", "Round 2")
    x.says("message", "Round 1 is closed.")


def test_nothing_can_be_submitted_while_a_round_is_closing(auction: Auction, x: Window) -> None:
    enter(auction, x)
    x.bid(0, 1, 100)
    auction.withhold()
    x.says("send", "The round is closing")
    assert x.at("send").get_attribute("aria-disabled") == "true"


def test_a_bidder_who_enters_while_a_round_is_closing_waits(auction: Auction, x: Window) -> None:
    auction.withhold()
    x.open(auction.address(), X)
    x.says("say", "The round is closing; its results follow. You will be entered then.")
    assert not x.is_seen("frame")
    auction.show()
    x.says("round", "Round 1")
    x.until("the form for the token is gone", lambda: not x.is_seen("door"))


# ---- Bids that come another way


def test_bids_of_another_program_are_loaded_and_copied(auction: Auction, x: Window) -> None:
    enter(auction, x)
    auction.put(X, 1, bid(1, 2, 100))
    x.menu("again")
    x.says("message", "The submitted bids are loaded.")
    x.says("force", "1 bid in force, as of")
    x.becomes(lambda: x.column("effect"), [" ", " In force: 2 at $100"])
    x.bid(0, 1, 100)
    x.says("todo", "The form differs from your bids in force")
    x.click("back")
    x.becomes(lambda: (x.value("quantity", 0), x.value("quantity", 1)), ("", "2"))
    x.says("todo", IN_FORCE)


def test_two_windows_of_a_browser_see_each_others_bids(auction: Auction, x: Window) -> None:
    auction.put(X, 1, bid(1, 1, 100))
    enter(auction, x)
    other = x.browser.window()
    enter(auction, other)
    for product in (0, 1):
        other.bid(product, 1, 100)
    other.send("2 bids in force since")
    other.close()
    x.says("force", "2 bids in force, as of")
    x.becomes(lambda: x.column("effect"), [" In force: 1 at $100", " ✓ in force"])
    x.says("todo", "The form differs from your bids in force")


# ---- Unknown tokens

UNKNOWN_TOKEN = "No token, or an unknown token"


@pytest.fixture(scope="module")
def shared(begin_once: Begin) -> Auction:
    return begin_once(example("two_products"))


@pytest.mark.parametrize(
    "page, token, words",
    [
        ("", "W" * 16, UNKNOWN_TOKEN),
        ("", X + "\u2026", UNKNOWN_TOKEN),
        ("", OPERATOR, UNKNOWN_TOKEN),
        (OPERATORS, "W" * 16, UNKNOWN_TOKEN),
        (OPERATORS, X, UNKNOWN_TOKEN),
    ],
    ids=["unknown", "no ASCII", "operator's", "unknown at the operator's page", "bidder's there"],
)
def test_a_strangers_token_is_refused(
    shared: Auction, x: Window, page: str, token: str, words: str
) -> None:
    x.open(shared.address(page), token)
    x.says("say", words)
    x.becomes(lambda: (x.is_seen("door"), x.is_seen("desk")), (True, False))
    assert x.is_seen("say"), "beside the field, before anyone has entered"
    assert x.at("token").get_attribute("aria-describedby") == "say"
    assert x.at("token").get_attribute("aria-invalid") == "true"


@pytest.mark.parametrize("page", ["", OPERATORS], ids=["bidder", "operator"])
def test_a_token_can_be_seen_while_it_is_typed(shared: Auction, x: Window, page: str) -> None:
    x.open(shared.address(page))
    kinds = []
    for _ in range(3):
        kinds.append(x.at("token").get_attribute("type"))
        x.at("peek").click()
    assert kinds == ["password", "text", "password"]
