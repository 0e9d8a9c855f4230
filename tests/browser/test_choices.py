"""What a bidder chooses: an alarm before the end, columns, and a review at any time."""
import json
import re

import pytest

from tests.browser.auction import Auction, X, Y, bid, example
from tests.browser.conftest import Begin
from tests.browser.people import enter
from tests.browser.published import Published
from tests.browser.test_receipts import HERE, submitted
from tests.browser.window import Window

# A browser that grants notifications, and notes them and each sound.
ALLOWS = """window.rung = [];
window.Notification = class {
    static permission = 'granted';
    static requestPermission() { return Promise.resolve('granted'); }
    constructor(title, {body}) { window.rung.push(title + '. ' + body); }
};
const begin = OscillatorNode.prototype.start;
window.sounds = 0;
OscillatorNode.prototype.start = function(...when) { window.sounds++; begin.apply(this, when); };"""


@pytest.fixture
def auction(begin: Begin) -> Auction:
    return begin(example("two_products"))


# ---- The alarm


def test_the_alarm_comes_before_the_end_if_it_is_chosen(auction: Auction, x: Window) -> None:
    day = Published(auction)
    day.timetable(1, (-60, 600))
    enter(auction, x)
    x.until("the time is known", lambda: x.text("left"))
    x.run(ALLOWS)
    x.menu("alarm")
    x.says("message", "The alarm is on: a sound and a notification.")
    sounds = x.run("return window.sounds")
    day.timetable(1, (-60, 75))
    x.until("it comes", lambda: x.run("return window.rung"))
    words = r"(1 minute|\d+ seconds) left in round 1\. Submit bids: without any you are out .*"
    assert re.fullmatch(words, x.run("return window.rung[0]"))
    assert x.run("return window.sounds") > sounds


def test_without_the_choice_nothing_is_heard(auction: Auction, x: Window) -> None:
    day = Published(auction)
    day.timetable(1, (-60, 600))
    enter(auction, x)
    x.until("the time is known", lambda: x.text("left"))
    x.run(ALLOWS)
    day.timetable(1, (-60, 50))
    x.until("less than a minute is left", lambda: re.match("0:|Cl", x.text("left")))
    assert x.run("return [window.rung.length, window.sounds]") == [0, 0]


# ---- Columns


def is_column_seen(window: Window, name: str) -> bool:
    return bool(window.run(f"return document.querySelector('#heads .c-{name}').checkVisibility()"))


def choose(window: Window, name: str) -> None:
    window.find("#columns summary").click()
    window.at(f"column-{name}").click()
    window.find("#columns summary").click()


def test_columns_are_chosen_and_stay_after_a_reload(auction: Auction, x: Window) -> None:
    x.size(1600, 900)
    enter(auction, x)
    assert is_column_seen(x, "units") and is_column_seen(x, "rise")
    choose(x, "units")
    assert not is_column_seen(x, "units") and is_column_seen(x, "rise")
    enter(auction, x)
    assert not is_column_seen(x, "units") and is_column_seen(x, "rise")
    choose(x, "units")
    assert is_column_seen(x, "units")


def test_a_column_is_shown_in_a_narrow_window_if_it_is_chosen(auction: Auction, x: Window) -> None:
    x.size(1024, 768)
    enter(auction, x)
    assert not is_column_seen(x, "units")
    choose(x, "units")
    assert is_column_seen(x, "units")


# ---- The review


def rows(window: Window) -> list[list[str]]:
    return window.run(
        """return [...document.querySelectorAll('#details tbody tr')]
        .map(row => [...row.cells].map(cell => cell.textContent));"""
    )


def test_the_first_submission_of_a_round_is_reviewed_and_no_other(
    auction: Auction, x: Window
) -> None:
    enter(auction, x)
    x.bid(0, 1, 100)
    x.click("send")
    assert x.is_seen("question")
    assert rows(x) == [["Increase", "1", "1", "A"]]
    assert x.text("yes") == "Submit 1 bid, $100"
    x.has_focus("yes")
    x.at("no").click()
    x.says("force", "No bids in force")
    x.send("1 bid in force since")
    x.bid(1, 1, 100)
    x.click("send")
    assert not x.is_seen("question")
    x.says("message", "2 bids in force since")


def test_the_bids_are_reviewed_at_any_time(auction: Auction, x: Window) -> None:
    auction.put(X, 1, bid(0, 1, 100))
    auction.put(Y, 1, bid(0, 2, 100))
    auction.close(1)
    enter(auction, x)
    x.bid(0, 0, 105)
    x.click("review")
    assert rows(x) == [["Give up", "1", "1", "A"]]
    x.says("details", "If all bids are applied$0", "At most$110")
    x.at("yes").click()
    x.says("message", "1 bid in force since")
    x.click("review")
    assert not x.is_seen("yes"), "what is in force already needs no submission"


def test_a_closing_takes_the_review_away(auction: Auction, x: Window) -> None:
    enter(auction, x)
    x.bid(0, 1, 100)
    x.click("send")
    assert x.is_seen("question")
    auction.put(Y, 1, bid(0, 2, 100))
    auction.put("Z" * 16, 1, bid(0, 1, 100))
    auction.close(1)
    x.says("round", "Round 2")
    assert not x.is_seen("question")
    x.says("force", "No bids in force")


# ---- Values


def test_a_price_above_what_a_block_is_worth_is_marked(
    auction: Auction, x: Window, downloads
) -> None:
    enter(auction, x)
    x.bid(0, 1, 100)
    file = downloads / "values.csv"
    file.write_text("product,first,second\nA,90,80\nB,200\n")
    x.at("upvalues").send_keys(str(file))
    x.says("message", "The values of 2 products are loaded, in this tab only.")
    assert x.row(0) == "Its last block is worth less than the clock price."
    x.group("above")
    x.becomes(lambda: x.column("name"), ["A"])
    x.group("all")
    file.write_text("C,1\n")
    x.at("upvalues").send_keys(str(file))
    x.says("message", "Not loaded: 1 wrong line.")


# ---- Bids of past rounds


def test_bids_of_past_rounds_are_taken_from_a_receipts_file(
    begin: Begin, x: Window, y: Window, downloads
) -> None:
    """A tab that saw nothing knows them after its bidder's file was loaded."""
    auction = begin(example("one_product"))
    auction.begin_receipts()
    enter(auction, x)
    x.bid(0, 2, 100)
    # On a very busy machine, a receipt may need more than five seconds.
    assert any(submitted(x) == HERE for _ in range(8))
    x.menu("receipts")
    file = downloads / "receipts-X.jsonl"
    x.until("the file", lambda: json.loads(file.read_text().splitlines()[-1])["sent"])
    auction.put(Y, 1, bid(0, 1, 100))
    auction.close(1)
    enter(auction, y)
    y.view("past")
    y.becomes(lambda: y.cells("pastbody")[0][6:8], ["not known", "2"])
    y.at("upreceipts").send_keys(str(file))
    y.says("message", "Bids of round 1 are loaded.")
    y.becomes(lambda: y.cells("pastbody")[0][6:8], ["2 at $100", "2"])
    y.says("own", "Your bids are those of your receipts file.")
