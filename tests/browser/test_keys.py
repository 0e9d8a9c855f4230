"""The pages with the keyboard only."""
import pytest
from selenium.webdriver.common.keys import Keys

from tests.browser import scripts
from tests.browser.auction import OPERATORS, Auction, Y, bid, example
from tests.browser.conftest import Begin
from tests.browser.people import enter
from tests.browser.window import Window
from tests.lib.setups import OPERATOR


@pytest.fixture
def auction(begin: Begin) -> Auction:
    return begin(example("two_products"))


@pytest.fixture(scope="module")
def shared(begin_once: Begin) -> Auction:
    """An auction in which nothing is submitted."""
    return begin_once(example("two_products"))


def stop(window: Window) -> str:
    return window.run(scripts.STOP)


# ---- The bidder's page


def enter_by_keys(auction: Auction, window: Window) -> None:
    window.open(auction.address())
    window.tab_to("the token", "#token").send_keys(Y, Keys.ENTER)
    window.says("round", "Round 1")
    window.has_focus("round")


def test_a_bidder_enters_and_submits_by_keys(auction: Auction, y: Window) -> None:
    enter_by_keys(auction, y)
    quantity = y.tab_to("a quantity", '[data-key="0.0"][data-field="quantity"]')
    quantity.send_keys(Keys.CONTROL + "a")
    quantity.send_keys("1")
    y.press(Keys.ARROW_DOWN, "1", Keys.ARROW_RIGHT, "100", Keys.ARROW_UP, "100")
    form = [y.value(name, row) for row in (0, 1) for name in ("quantity", "price")]
    assert form == ["1", "100"] * 2
    y.chord(Keys.CONTROL, Keys.ENTER)
    y.has_focus("yes")
    y.press(Keys.ENTER)
    y.says("message", "2 bids in force since")


def test_meta_and_enter_submit_from_anywhere(auction: Auction, y: Window) -> None:
    enter(auction, y, Y)
    y.bid(0, 1, 100)
    y.click("find")
    y.chord(Keys.META, Keys.ENTER)
    y.has_focus("yes")
    y.press(Keys.ENTER)
    y.says("message", "1 bid in force since")


def test_the_button_that_submits_is_reached_by_tab(auction: Auction, y: Window) -> None:
    auction.put(Y, 1, bid(0, 1, 100), bid(1, 1, 100))
    enter_by_keys(auction, y)
    y.says("force", "2 bids in force, as of")
    y.tab_to("the button that submits", "#send").send_keys(Keys.ENTER)
    y.says("message", "2 bids in force since")
    y.has_focus("send")


def test_the_table_is_one_tab_stop(shared: Auction, x: Window) -> None:
    enter(shared, x)
    x.run("document.getElementById('round').focus()")
    stops = []
    while "send" not in stops and len(stops) < 40:
        x.press(Keys.TAB)
        stops.append(stop(x))
    assert len(stops) < 16, stops


def test_arrows_go_from_field_to_field(shared: Auction, x: Window) -> None:
    enter(shared, x)
    x.field("quantity", 0).click()
    x.press("1", Keys.ARROW_RIGHT)
    assert stop(x) == "price0.0"
    x.press(Keys.ARROW_LEFT, Keys.ARROW_DOWN)
    assert stop(x) == "quantity1.0"
    x.press(Keys.ENTER)
    assert stop(x) == "quantity1.0", "the last row"


def test_escape_takes_back_the_entry_and_then_leaves_the_table(shared: Auction, x: Window) -> None:
    enter(shared, x)
    x.field("quantity", 1).click()
    x.press("7", Keys.ESCAPE)
    assert x.value("quantity", 1) == ""
    x.press(Keys.ESCAPE)
    assert stop(x) == "send"


def test_a_range_is_filled_down_and_undone(shared: Auction, x: Window) -> None:
    enter(shared, x)
    x.field("quantity", 0).click()
    x.press("1")
    x.chord(Keys.SHIFT, Keys.ARROW_DOWN)
    x.chord(Keys.CONTROL, "d")
    assert [x.value("quantity", row) for row in (0, 1)] == ["1", "1"]
    x.chord(Keys.CONTROL, "z")
    assert [x.value("quantity", row) for row in (0, 1)] == ["1", ""]


def test_plus_adds_a_price_point(shared: Auction, x: Window) -> None:
    enter(shared, x)
    x.field("quantity", 0).click()
    x.press("2", "+", "1")
    assert stop(x) == "quantity0.1"
    assert (x.value("quantity", 0), x.value("quantity", 0, 1)) == ("2", "1")


def test_a_slash_finds_and_escape_shows_all(shared: Auction, x: Window) -> None:
    enter(shared, x)
    x.run("document.getElementById('round').focus()")
    x.press("/")
    assert stop(x) == "find"
    x.press("b")
    x.becomes(lambda: x.column("name"), ["B"])
    assert x.text("count") == "1 of 2"
    x.press(Keys.ESCAPE)
    x.becomes(lambda: x.column("name"), ["A", "B"])
    x.press(Keys.ENTER)
    assert stop(x) == "quantity0.0"


def test_heads_sort_by_keys(shared: Auction, x: Window) -> None:
    enter(shared, x)
    x.tab_to("the first head", "#heads button").send_keys(Keys.ENTER)
    assert x.column("name") == ["A", "B"]
    x.press(Keys.ENTER)
    assert x.column("name") == ["B", "A"]
    assert x.find("#heads .c-name").get_attribute("aria-sort") == "descending"
    x.press(Keys.ARROW_RIGHT, Keys.ARROW_DOWN)
    assert stop(x) == "quantity1.0"


def test_views_change_by_arrows(shared: Auction, x: Window) -> None:
    enter(shared, x)
    x.tab_to("the views", "#bidstab").send_keys(Keys.ARROW_RIGHT)
    assert x.is_seen("pastview") and not x.is_seen("bidsview")
    assert stop(x) == "pasttab"


# ---- The operator's page


def test_the_operator_closes_a_round_by_keys(auction: Auction, x: Window, operator: Window) -> None:
    enter(auction, x)
    operator.open(auction.address(OPERATORS))
    operator.tab_to("the token", "#token").send_keys(OPERATOR, Keys.ENTER)
    operator.says("round", "Round 1")
    operator.has_focus("round")
    operator.tab_to("the button that closes", "#ask").send_keys(Keys.ENTER)
    operator.has_focus("field-typed")
    operator.press(Keys.ESCAPE)
    operator.has_focus("ask")
    operator.press(Keys.ENTER)
    operator.has_focus("field-typed")
    # The browser has not said yet that this question is gone when the next one is asked.
    again = (
        "document.getElementById('question').close('no'); document.getElementById('ask').click()"
    )
    operator.run(again)
    operator.has_focus("field-typed")
    operator.press("1", Keys.TAB, Keys.TAB, Keys.ENTER)
    operator.says("say", "Round 1 is closed. The auction has ended.")
    x.says("round", "Ended after round 1")
    operator.has_focus("round")  # its button is gone
    operator.press(Keys.TAB)
    assert stop(operator) == "act-pause", "the acts come next"


def test_a_closing_takes_the_cursor_from_a_button_that_is_gone(auction: Auction, x: Window) -> None:
    enter(auction, x)
    x.field("quantity", 0).click()
    auction.close(1)
    x.says("round", "Ended after round 1")
    x.has_focus("round")
