"""The form: errors at their rows, missing bids, files, and keys that change many rows."""
import pathlib

import pytest
from selenium.webdriver.common.keys import Keys

from tests.browser import scripts
from tests.browser.auction import Auction, X, Y, bid, example
from tests.browser.conftest import Begin
from tests.browser.people import enter, totals
from tests.browser.window import Window

WRONG_QUANTITY = "the quantity is not a whole number: enter a number of blocks, or 0"
WRONG_PRICE = (
    "the price is not a whole number of dollars: enter one, or leave it empty for the clock price"
)


@pytest.fixture(scope="module")
def auction(begin_once: Begin) -> Auction:
    """Round 1 of two products. No test submits bids that are accepted."""
    return begin_once(example("two_products"))


@pytest.fixture(scope="module")
def second_round(begin_once: Begin) -> Auction:
    """Round 2 of one product, of which X has 2 blocks. No test submits bids that are accepted."""
    auction = begin_once(example("one_product"))
    auction.put(X, 1, bid(0, 2, 100))
    auction.put(Y, 1, bid(0, 1, 100))
    auction.close(1)
    return auction


def is_refused(window: Window, words: str, step: int = 0) -> None:
    """A row has an error before it is sent, and the server refuses it in the same words."""
    window.until(f"said at the row: {words}", lambda: words in window.row(0, step))
    assert window.sign(0, step) == "⚠", "with a sign, not by color alone"
    window.submit()
    window.until(f"refused: {words}", lambda: "Refused" in window.row(0, step))
    window.says("message", "Refused", words)


# ---- Errors


@pytest.mark.parametrize(
    "words, quantity, price",
    [
        ("not between start-of-round price", 1, 101),
        ("above the product's cap", 3, 100),
    ],
    ids=["price_range", "over_cap"],
)
def test_a_wrong_bid_is_marked_and_refused(
    auction: Auction, x: Window, words: str, quantity: int, price: int
) -> None:
    enter(auction, x)
    x.bid(0, quantity, price)
    is_refused(x, words)
    assert "in force" not in x.text("message"), "there are no bids that could stay in force"


def test_activity_above_the_limit_is_marked_and_refused(auction: Auction, x: Window) -> None:
    enter(auction, x)
    x.bid(0, 2, "$100")
    x.bid(1, 2, "")
    x.says("message", "more activity than the limit")
    assert totals(x)["Activity"] == "4 of 2 · 2 above the limit"
    x.send("Refused: the sheet requests more activity")


@pytest.mark.parametrize(
    "quantity, price, words",
    [("x", 100, WRONG_QUANTITY), ("", 100, WRONG_QUANTITY), (1, "1,00", WRONG_PRICE)],
    ids=["no number", "no quantity", "no price"],
)
def test_what_cannot_be_read_is_neither_sent_nor_saved(
    auction: Auction, x: Window, quantity: object, price: object, words: str
) -> None:
    enter(auction, x)
    x.bid(1, quantity, price)
    x.until(f"said at the row: {words}", lambda: words[1:] in x.row(1))
    assert x.text("send") == "Show what cannot be read"
    x.noted()
    x.click("send")
    x.becomes(lambda: x.run("return document.activeElement.dataset.key"), "1.0")
    assert x.run("return window.sent") == []
    x.menu("down")
    x.says("message", "Not saved: a row cannot be read")


def test_a_key_ends_what_was_said_of_the_form(second_round: Auction, x: Window) -> None:
    enter(second_round, x)
    x.bid(0, 2, 105)
    is_refused(x, "maintain your processed demand, bid at the clock price")
    x.bid(0, 1, 103)
    x.until("it is gone", lambda: "Refused" not in x.text("message"))


@pytest.mark.parametrize(
    "second, words",
    [((0, 103), "at rising prices"), ((2, 104), "only falling or only rising")],
    ids=["price_order", "mixed_direction"],
)
def test_a_wrong_price_point_is_marked_and_refused(
    second_round: Auction, x: Window, second: tuple[int, int], words: str
) -> None:
    enter(second_round, x)
    x.bid(0, 1, 103)
    x.find("#body button.add").click()
    x.bid(0, *second, 1)
    is_refused(x, words, 1)


# ---- Missing bids


def test_maintain_fills_in_all_demand_at_the_clock_price(second_round: Auction, x: Window) -> None:
    enter(second_round, x)
    x.menu("clear")
    x.click("keep")
    assert (x.value("quantity", 0), x.value("price", 0)) == ("2", "")
    assert totals(x)["Commitment"] == "$220 · now $200"


def test_a_missing_bid_is_marked_counted_and_can_be_shown(second_round: Auction, x: Window) -> None:
    enter(second_round, x)
    x.menu("clear")
    assert x.row(0) == "Missing bid: asks for 0 at $100."
    assert x.sign(0) == "●"
    x.field("quantity", 0).send_keys("1", Keys.BACKSPACE)
    x.says("message", "1 missing bid: you ask to give up 2 of your 2 blocks.")
    assert totals(x)["Eligibility after"] == "≥ 0 · now 3"
    x.group("missing")
    assert len(x.rows("body")) == 1


def test_missing_bids_are_asked_about(begin: Begin, x: Window) -> None:
    auction = begin(example("one_product"))
    auction.put(X, 1, bid(0, 2, 100))
    auction.put(Y, 1, bid(0, 1, 100))
    auction.close(1)
    enter(auction, x)
    x.menu("clear")
    x.click("send")
    x.says("asked", "you ask to give up 2 of your 2 blocks")
    x.press(Keys.ESCAPE)
    x.until("Escape is No", lambda: not x.is_seen("question"))
    x.says("force", "No bids in force")
    x.click("send")
    x.until("it is asked about again", lambda: x.is_seen("question"))
    x.at("yes").click()
    x.says("message", "0 bids in force since")
    x.says("force", "0 bids in force since")


# ---- Files


@pytest.fixture
def file(downloads: pathlib.Path) -> pathlib.Path:
    return downloads / "bids-X-1.csv"


def upload(window: Window, file: pathlib.Path, text: str) -> None:
    file.write_text(text)
    window.at("up").send_keys(str(file))


def test_bids_are_saved_as_csv(auction: Auction, x: Window, file: pathlib.Path) -> None:
    enter(auction, x)
    x.bid(0, 2, "$100")
    x.bid(1, 0, 100)
    x.menu("down")
    lines = ["product,quantity,price", "A,2,100", "B,0,100"]
    x.until("bids as CSV", lambda: file.read_text().splitlines() == lines)


def test_each_wrong_line_of_a_file_is_listed_and_nothing_is_taken(
    auction: Auction, x: Window, file: pathlib.Path
) -> None:
    enter(auction, x)
    x.bid(1, 0, 100)
    upload(x, file, "product,quantity,price\nA,1,100\nC,1,100\n1,one,100\nA,1\nA,1,-1\n")
    wrong = ["no product is called C", WRONG_QUANTITY]
    wrong += ["there are not three fields: product,quantity,price", WRONG_PRICE]
    wanted = [f"line {number}: {words}" for number, words in enumerate(wrong, 3)]
    x.becomes(lambda: x.at("lines").text.splitlines(), wanted)
    x.says("message", "Not uploaded: 4 wrong lines.")
    assert x.value("quantity", 1) == "0"
    upload(x, file, "A,1,100\n")
    x.says("message", "1 bid uploaded. Nothing is submitted yet.")
    assert x.text("lines") == "", "wrong lines are no longer listed"


def test_too_many_bids_of_a_file_are_refused(
    auction: Auction, x: Window, file: pathlib.Path
) -> None:
    enter(auction, x)
    upload(x, file, "A,1,100\n" * 30000)
    x.says("message", "More than 8,192 bids.")
    x.send("Refused: there are too many bids to send")


def test_a_spreadsheets_file_is_read(auction: Auction, x: Window, file: pathlib.Path) -> None:
    enter(auction, x)
    upload(x, file, "product;quantity;price\nA;1;$100\n1;1;\n;;\n")
    x.becomes(lambda: (x.value("quantity", 1), x.value("price", 1)), ("1", ""))
    assert x.value("price", 0) == "100"


# ---- Changes of many rows, and undo


def quantities(window: Window) -> list[str]:
    return [window.value("quantity", row) for row in range(2)]


def test_a_column_is_pasted_and_undone(auction: Auction, x: Window) -> None:
    enter(auction, x)
    x.run(scripts.PASTE, "1\n1")
    x.says("message", "Pasted into 2 rows, from A down. Nothing is submitted yet.")
    assert quantities(x) == ["1", "1"]
    x.click("undo")
    x.says("message", "Undone: paste.")
    assert quantities(x) == ["", ""]


def test_bids_by_product_are_pasted(auction: Auction, x: Window) -> None:
    enter(auction, x)
    x.run(scripts.PASTE, "product,quantity,price\nB,1,100\nA,0,\n")
    x.says("message", "2 bids pasted. Nothing is submitted yet.")
    assert quantities(x) == ["0", "1"]
    assert x.value("price", 1) == "100"


@pytest.mark.parametrize("change", ["clear", "keep", "typing", "upload"])
def test_each_change_of_the_form_can_be_undone(
    second_round: Auction, x: Window, file: pathlib.Path, change: str
) -> None:
    enter(second_round, x)
    x.bid(0, 1, 103)
    before = (x.value("quantity", 0), x.value("price", 0))
    if change == "clear":
        x.menu("clear")
    elif change == "keep":
        x.click("keep")
    elif change == "typing":
        x.field("quantity", 0).click()
        x.press("0")
    else:
        upload(x, file, "A,0,101\n")
    x.until("the form changes", lambda: (x.value("quantity", 0), x.value("price", 0)) != before)
    x.click("undo")
    x.becomes(lambda: (x.value("quantity", 0), x.value("price", 0)), before)
