"""The live auction of the README, by X, Y and the operator: two rounds, one product."""
import re

import pytest
from selenium.webdriver.common.keys import Keys

from tests.browser import scripts
from tests.browser.auction import Auction, X, Y, bid, example
from tests.browser.conftest import Begin
from tests.browser.people import close_round, enter, totals
from tests.browser.window import Window
from tests.lib.setups import OPERATOR

ROUND_1, ROUND_2 = bid(0, 2, 100), bid(0, 1, 100)
SEEN_LAST = re.compile(r"Your bids are shown as this tab last saw them, at \d\d:\d\d:\d\d\.$")
NOT_KNOWN = "Which bids were in force is not known here"
LAST_ROUND = ["A", "$100", "$110", "$103", "≤ 2", "no"]


@pytest.fixture
def auction(begin: Begin) -> Auction:
    return begin(example("one_product"))


@pytest.fixture
def second_round(auction: Auction) -> Auction:
    """Round 2: X has 2 blocks, and Y has 1."""
    auction.put(X, 1, bid(0, 2, 100))
    auction.put(Y, 1, bid(0, 1, 100))
    auction.close(1)
    return auction


@pytest.fixture
def ended(second_round: Auction) -> Auction:
    """After round 2, in which X reduced to 0, and was left with 1 block. Each has won 1 block."""
    second_round.put(X, 2, bid(0, 0, 103))
    second_round.put(Y, 2, bid(0, 1, 110))
    second_round.close(2)
    return second_round


# ---- Round 1


def test_a_bidder_is_told_what_happens_without_bids(auction: Auction, x: Window) -> None:
    enter(auction, x)
    x.says("todo", "Submit bids: without any you are out of the auction.")


def test_the_operator_is_told_that_no_conductor_runs(auction: Auction, operator: Window) -> None:
    enter(auction, operator, OPERATOR)
    operator.says("waits", "No conductor is running")


def test_the_totals_are_of_the_form(auction: Auction, x: Window) -> None:
    enter(auction, x)
    x.bid(0, 2, 100)
    assert totals(x) == {
        "Commitment": "$200 · now $0",
        "Activity": "2 of 10 · now 0",
        "Keeps eligibility": "9 · 7 short, 95%",
        "Eligibility after": "3 · now 10",
    }
    x.says("message", "You will lose 7 of your 10 eligibility.")


def test_an_empty_price_is_the_clock_price(auction: Auction, x: Window) -> None:
    enter(auction, x)
    x.bid(0, 1, "")
    assert totals(x)["Commitment"] == "$100 · now $0"


def test_a_submission_is_in_force_and_nothing_is_left_to_do(auction: Auction, x: Window) -> None:
    enter(auction, x)
    x.bid(0, 2, 100)
    x.send("1 bid in force since")
    x.says("force", "1 bid in force since")
    x.says("todo", "Your bids are in force. Nothing is left to do.")
    assert x.kind("todo") == "done"
    assert "In force: 1 bid, $200" in x.text("send")


def test_a_change_after_a_submission_is_to_be_submitted(auction: Auction, x: Window) -> None:
    auction.put(X, 1, ROUND_1)
    enter(auction, x)
    x.bid(0, 2, 99)
    x.says("todo", "The form differs from your bids in force")


# ---- What a closing changes


def test_a_closing_keeps_what_one_types(auction: Auction, x: Window, operator: Window) -> None:
    auction.put(Y, 1, ROUND_2)
    enter(auction, x)
    enter(auction, operator, OPERATOR)
    x.bid(0, 2, 100)
    x.send("1 bid in force since")
    x.bid(0, 2, 99)
    close_round(operator)
    operator.says("say", "Round 1 is closed")
    x.says(
        "message",
        "Round 1 is closed. Your processed demand changed in 1 of 1 product. Your eligibility fell "
        "from 10 to 3. In the form, 1 row that you had not submitted keeps its quantity: "
        "not submitted yet.",
    )
    assert (x.value("quantity", 0), x.value("price", 0)) == ("2", ""), "an old price is cleared"
    x.press("105")
    assert x.value("price", 0) == "105", "the cursor is still in the field"


def test_a_closing_maintains_what_was_submitted(auction: Auction, x: Window) -> None:
    auction.put(Y, 1, ROUND_1)
    enter(auction, x)
    x.bid(0, 1, "")
    x.send("1 bid in force since")
    auction.close(1)
    x.says("round", "Round 2")
    x.says("message", "1 row maintains demand at the new clock price")
    assert (x.value("quantity", 0), x.value("price", 0)) == ("1", "")
    assert x.row(0) == "Maintain 1."
    assert x.run("return document.querySelectorAll('#body tr.wrong').length") == 0


def test_a_row_has_demand_excess_prices_and_their_rise(second_round: Auction, x: Window) -> None:
    enter(second_round, x)
    market = (
        "name",
        "units",
        "cap",
        "supply",
        "demand",
        "excess",
        "start",
        "rise",
        "clock",
        "held",
    )
    row = x.rows("body")[0]
    assert [row[name] for name in market] == [
        "A",
        "1",
        "2",
        "2",
        "3",
        "+1",
        "$100",
        "0%",
        "$110",
        "2",
    ]


@pytest.mark.parametrize("view", ["bids", "past", "times"])
def test_a_closing_is_read_out_in_one_sentence(auction: Auction, x: Window, view: str) -> None:
    auction.put(Y, 1, ROUND_1)
    enter(auction, x)
    x.bid(0, 2, 100)
    x.send("1 bid in force since")
    x.view(view)
    x.run(scripts.LIVE)
    auction.close(1)
    x.says("round", "Round 2")
    x.says("message", "Round 1 is closed.")
    x.settle()
    assert x.run("return [...window.live]") == ["message"]


# ---- Round 2, and the end


def test_the_effect_of_a_bid_is_said(second_round: Auction, x: Window) -> None:
    enter(second_round, x)
    x.bid(0, 0, 103)
    assert x.row(0) == "Reduce 2 to 0."


def test_the_end_says_what_was_won_and_what_it_costs(
    second_round: Auction, x: Window, y: Window, operator: Window
) -> None:
    for window, token in ((x, X), (y, Y), (operator, OPERATOR)):
        enter(second_round, window, token)
    x.bid(0, 0, 103)
    x.send("1 bid in force since")
    y.click("keep")
    y.send("1 bid in force since")
    close_round(operator)
    operator.says("round", "Ended after round 2")
    for window in (x, y):
        window.says("round", "Ended after round 2")
        window.says("todo", "The auction has ended. You won 1 block for $103.")
        assert window.facts("sums")[:2] == [["Blocks won", "1"], ["To pay", "$103"]]


def test_after_the_end_nothing_can_be_submitted(ended: Auction, y: Window) -> None:
    enter(ended, y, Y)
    assert y.text("send") == "The auction has ended"
    assert y.at("send").get_attribute("aria-disabled") == "true"
    assert not y.field("quantity", 0).is_enabled() and not y.row(0)


def test_the_operators_table_has_what_each_bidder_won(ended: Auction, operator: Window) -> None:
    enter(ended, operator, OPERATOR)
    won = [(row["name"], row["demand"]) for row in operator.rows("resbody")]
    assert won == [("X", "A: 1"), ("Y", "A: 1")]
    heads = "return [...document.querySelectorAll('#resframe th[scope=col]')]"
    named = operator.run(heads + ".map(each => each.textContent)")
    assert named == ["Bidder", "Eligibility", "Activity", "To pay", "Blocks won"]


def test_a_change_of_processed_demand_is_shown(ended: Auction, x: Window) -> None:
    enter(ended, x)
    assert x.column("held") == ["1was 2"]
    x.group("changed")
    assert x.column("name") == ["A"]


CELLS_OF = """return [...document.querySelectorAll(`#${arguments[0]} tbody tr:not(.room)`)]
    .map(row => [...row.cells].map(cell => cell.textContent));"""


def past(window: Window) -> list[list[str]]:
    """The rows of a closed round."""
    return window.cells("pastbody")


def test_closed_rounds_have_the_bids_that_this_tab_saw(second_round: Auction, x: Window) -> None:
    enter(second_round, x)
    x.bid(0, 0, 103)
    x.send("1 bid in force since")
    second_round.put(Y, 2, bid(0, 1, 110))
    second_round.close(2)
    x.says("round", "Ended after round 2")
    x.view("past")
    x.becomes(
        lambda: past(x),
        [[*LAST_ROUND, "0 at $103", "1", ""]],
    )
    assert SEEN_LAST.search(x.text("own"))
    x.choose("which", "1")
    x.becomes(
        lambda: past(x),
        [["A", "$100", "$100", "$100", "3", "+1", "not known", "2", ""]],
    )


def test_bids_that_this_tab_saw_are_there_after_a_reload(second_round: Auction, x: Window) -> None:
    enter(second_round, x)
    x.bid(0, 0, 103)
    x.send("1 bid in force since")
    second_round.put(Y, 2, bid(0, 1, 110))
    second_round.close(2)
    x.says("round", "Ended after round 2")
    enter(second_round, x)
    x.view("past")
    x.becomes(lambda: past(x), [[*LAST_ROUND, "0 at $103", "1", ""]])
    enter(second_round, x, Y)
    x.view("past")
    x.becomes(lambda: past(x), [[*LAST_ROUND, "not known", "1", ""]])


def test_a_product_and_the_totals_are_shown_by_round(ended: Auction, x: Window) -> None:
    enter(ended, x)
    x.view("past")
    totals = [["2", "1", "$103", "1", "2", "not known"], ["1", "2", "$200", "2", "3", "not known"]]
    x.becomes(lambda: x.run(CELLS_OF, "totals"), totals)
    x.find("#pastbody button").click()
    x.says("charted", "A: posted price (line), processed demand (bars)")
    x.becomes(lambda: [row[0] for row in x.cells("byroundbody")], ["2", "1"])
    x.click("mytotals")
    x.says("charted", "All products: commitment")


def test_the_chart_has_a_cursor_that_arrows_move(ended: Auction, x: Window) -> None:
    enter(ended, x)
    x.view("past")
    x.until("the chart is there", lambda: x.find("#chart svg[aria-valuemax='2']"))
    reading = "return document.querySelector('#chart .reading').textContent"
    assert x.run(reading).startswith("Round 2: 103 dollars")
    x.run("document.querySelector('#chart svg').focus()")
    x.press(Keys.ARROW_LEFT)
    assert x.run(reading).startswith("Round 1: 200 dollars, 2 blocks, eligibility 3")


def test_my_results_are_saved(ended: Auction, x: Window, downloads) -> None:
    enter(ended, x)
    x.view("past")
    x.until("both rounds are there", lambda: x.text("pastprogress") == "")
    x.click("myresults")
    file = downloads / "results-X.csv"
    lines = ["1,A,2,100,100,100,3,not known,2,200", "2,A,2,100,110,103,,not known,1,103"]
    x.until("the file", lambda: file.read_text().splitlines()[1:] == lines)


def test_this_round_is_filled_in_and_uploaded(second_round: Auction, x: Window, downloads) -> None:
    enter(second_round, x)
    x.menu("clear")
    x.menu("downround")
    file = downloads / "round-2-X.csv"
    head = "product,units,supply,cap,start,clock,aggregate demand,processed demand,quantity,price"
    lines = [head, "A,1,2,2,100,110,3,2,,"]
    x.until("the file", lambda: file.read_text().splitlines() == lines)
    file.write_text("\n".join([head, "A,1,2,2,100,110,3,2,1,105"]))
    x.at("up").send_keys(str(file))
    x.says("message", "1 bid uploaded. Nothing is submitted yet.")
    assert (x.value("quantity", 0), x.value("price", 0)) == ("1", "105")


def test_a_tab_that_saw_no_bids_says_so(ended: Auction, x: Window) -> None:
    enter(ended, x)
    x.view("past")
    x.becomes(
        lambda: past(x),
        [[*LAST_ROUND, "not known", "1", ""]],
    )
    x.says("own", "processed demand 1 block", NOT_KNOWN)


def test_the_chart_has_both_rounds_in_words(ended: Auction, x: Window) -> None:
    enter(ended, x)
    x.view("past")
    x.until("a product can be chosen", lambda: x.find("#pastbody button"))
    x.find("#pastbody button").click()
    title = "return document.querySelector('#chart title')?.textContent ?? ''"
    both = "round 1: 100 dollars, 2 of 3 asked for; round 2: 103 dollars, 1"
    x.until("the chart has both rounds", lambda: both in x.run(title))


def test_the_operator_saves_the_results(ended: Auction, operator: Window, downloads) -> None:
    enter(ended, operator, OPERATOR)
    operator.click("save")
    file = downloads / "results-2.csv"
    lines = ["bidder,product,blocks,posted", "X,A,1,103", "Y,A,1,103"]
    operator.until("the results as CSV", lambda: file.read_text().splitlines() == lines)


def test_the_operator_looks_at_closed_rounds(ended: Auction, operator: Window) -> None:
    enter(ended, operator, OPERATOR)
    last = [["A", "$100", "$110", "$103", "no excesssupply 2", "–"]]
    operator.becomes(lambda: past(operator), last)
    operator.choose("which", "1")
    first = [["A", "$100", "$100", "$100", "3supply 2, excess 1", "$110"]]
    operator.becomes(lambda: past(operator), first)
