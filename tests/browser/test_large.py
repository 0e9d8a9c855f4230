"""3,233 products: what the pages work, finding, sorting, an error far below, and a closing.

The work is the processor's time of the page's thread, which other work of the machine does not
change much. A bound is ten times the goal for a quiet machine.
"""
import json
import pathlib
from typing import Any

import pytest

from tests.browser import scripts
from tests.browser.auction import OPERATORS, Auction, X, bid, example
from tests.browser.conftest import Begin
from tests.browser.people import close_round, enter
from tests.browser.window import Window
from tests.lib.setups import OPERATOR

COUNT = 3233
MOST_ROWS = 60  # laid out: those that are seen, and some around them
LETTERS = "ABCDEFGHIJKLMNOPQRSTUVWXYZabcdefghijklmnopqrstuvwxyz0123456789-_"
HALVES = [LETTERS[:32], LETTERS[32:]]


def set_up() -> dict[str, Any]:
    """3,233 products and six bidders, with names of every letter."""
    setup = example("two_products")
    one = {"units": 1, "supply": 2, "cap": 2, "opening": 100}
    setup["products"] = [{"name": f"P-{place}", **one} for place in range(COUNT)]
    more = [{"name": f"B{n}", "token": f"B{n}" * 8, "eligibility": 9} for n in range(3)]
    setup["bidders"] += more
    for names in ("products", "bidders"):
        for place, name in enumerate(HALVES):
            setup[names][place]["name"] = name
    return setup


@pytest.fixture(scope="module")
def auction(begin_once: Begin) -> Auction:
    """Round 1. No test submits bids that are accepted."""
    return begin_once(set_up())


def row_count(window: Window) -> int:
    return int(window.at("grid").get_attribute("aria-rowcount")) - 1


def laid_out(window: Window, body: str) -> int:
    return window.run("return document.querySelectorAll('#' + arguments[0] + ' tr').length", body)


def work(window: Window) -> float:
    """The milliseconds that the page's thread has worked on scripts, styles and layout."""
    found = window.cdp("Performance.getMetrics")["metrics"]
    names = ("ScriptDuration", "LayoutDuration", "RecalcStyleDuration")
    return sum(1000 * each["value"] for each in found if each["name"] in names)


def worked(window: Window, script: str, *words: str, times: int = 9) -> float:
    """The milliseconds of work of a script and of the layout that follows."""
    window.cdp("Performance.enable", timeDomain="threadTicks")
    timed = f"(function() {{ {script} }}).apply(null, arguments); document.body.offsetHeight;"
    window.run(timed, *words)  # the first time compiles it
    before = work(window)
    for _ in range(times):
        window.run(timed, *words)
    return (work(window) - before) / times


def upload(window: Window, file: pathlib.Path, text: str) -> None:
    file.write_text(text)
    window.at("up").send_keys(str(file))


FULL = "".join(f"{place},2,100\n" for place in range(COUNT - 1)) + f"P-{COUNT - 1},3,100\n"


@pytest.mark.parametrize(
    "page, token, body", [("", X, "body"), (OPERATORS, OPERATOR, "resbody")], ids=["X", "operator"]
)
def test_the_table_is_there_after_a_second_of_work(
    auction: Auction, x: Window, page: str, token: str, body: str
) -> None:
    x.open(auction.address(page))
    x.cdp("Performance.enable", timeDomain="threadTicks")
    x.at("token").send_keys(token)
    before = work(x)
    x.run(scripts.ENTRY, body)
    x.find("#door button").click()
    x.until("the table is there", lambda: x.run("return window.waited") is not None)
    assert work(x) - before < 10 * 1000
    assert laid_out(x, body) < MOST_ROWS, "no more is laid out than what is seen, and some rows"


@pytest.mark.parametrize(
    "script, most",
    [(scripts.KEY, 16), (scripts.SORT, 100), (scripts.FIND, 50)],
    ids=["key", "sort", "find"],
)
def test_each_act_is_quick(auction: Auction, x: Window, script: str, most: float) -> None:
    enter(auction, x)
    assert worked(x, script) < 10 * most


def test_a_column_and_a_block_of_3233_are_pasted_quickly(auction: Auction, x: Window) -> None:
    enter(auction, x)
    column, block = "\n".join(["1"] * COUNT), "\n".join(["1\t"] * COUNT)
    for text in (column, block):
        assert worked(x, scripts.PASTE, text, times=2) < 10 * 300
    x.says("send", "Submit 3,233 bids")
    assert worked(x, scripts.KEY) < 10 * 16, "a key with 3,233 bids"
    assert worked(x, scripts.SORT) < 10 * 100, "sorting with 3,233 bids"
    assert worked(x, scripts.FIND) < 10 * 50, "a search with 3,233 bids"


def test_the_review_of_3233_bids_names_some(auction: Auction, x: Window) -> None:
    enter(auction, x)
    x.run(scripts.PASTE, "\n".join(["1"] * COUNT))
    x.click("review")
    x.says("details", "and 3,230 more")
    x.at("no").click()


def test_on_paper_there_are_all_rows_and_the_time(auction: Auction, x: Window) -> None:
    enter(auction, x)
    x.run("dispatchEvent(new Event('beforeprint'))")
    assert laid_out(x, "body") == COUNT
    x.says("printed", "Round 1, ", "printed at ", "No bids in force")
    x.cdp("Emulation.setEmulatedMedia", media="print")
    try:
        assert x.is_seen("printed") and not x.is_seen("send")
        script = "return getComputedStyle(document.getElementById('frame')).overflowY"
        assert x.run(script) == "visible", "no frame cuts rows off"
    finally:
        x.cdp("Emulation.setEmulatedMedia", media="")
    x.run("dispatchEvent(new Event('afterprint'))")
    assert laid_out(x, "body") < MOST_ROWS


def test_rows_far_below_are_drawn(auction: Auction, x: Window) -> None:
    enter(auction, x)
    x.run("document.getElementById('frame').scrollTop = 1e9")
    x.says("body", f"P-{COUNT - 1}")
    assert laid_out(x, "body") < MOST_ROWS


def test_a_row_with_the_cursor_stays_laid_out(auction: Auction, x: Window) -> None:
    enter(auction, x)
    x.field("quantity", 3).click()
    x.run("document.getElementById('frame').scrollTop = 40000")
    x.settle()
    assert x.run(scripts.STOP) == "quantity3.0"
    x.press("2")
    assert x.value("quantity", 3) == "2"


def test_products_are_found_by_name(auction: Auction, x: Window) -> None:
    enter(auction, x)
    x.write("find", "p-19")
    x.becomes(lambda: row_count(x), 111)
    assert x.text("count") == "111 of 3,233"
    assert x.column("name")[0] == "P-19"
    x.click("unfind")
    x.becomes(lambda: row_count(x), COUNT)


def test_groups_are_counted_and_shown(auction: Auction, x: Window) -> None:
    enter(auction, x)
    x.bid(0, 1, "")
    x.write("find", "")
    x.run("document.querySelector('#heads [data-id=clock] button').click()")
    x.menu("clear")
    x.click("undo")
    x.group("bid")
    x.becomes(lambda: row_count(x), 1)
    assert not x.find("#groups [data-group=held]").is_enabled(), "no product has demand"
    x.group("all")
    x.becomes(lambda: row_count(x), COUNT)


def test_the_cursor_moves_to_an_error_far_below(
    auction: Auction, x: Window, downloads: pathlib.Path
) -> None:
    enter(auction, x)
    upload(x, downloads / "full.csv", FULL)
    x.says("message", "1 bid has an error.")
    x.says("send", "Submit 3,233 bids")
    x.click("act")
    last = f"{COUNT - 1}.0"
    x.becomes(lambda: x.run("return document.activeElement.dataset.key"), last)
    assert "cap" in x.row(COUNT - 1)


def test_more_than_8192_bids_are_refused(
    auction: Auction, x: Window, downloads: pathlib.Path
) -> None:
    enter(auction, x)
    upload(x, downloads / "many.csv", "P-19,1,100\n" * 8193)
    x.says("message", "More than 8,192 bids")
    x.send("Refused: more than 8,192 bids")


def test_heads_sort_rising_falling_and_as_set_up(auction: Auction, x: Window) -> None:
    enter(auction, x)
    for order in ("ascending", "descending", "none"):
        x.run(scripts.SORT)
        head = x.find("#heads [data-id=clock]")
        assert head.get_attribute("aria-sort") == order


def test_names_of_every_letter_are_shown_as_text(
    auction: Auction, x: Window, operator: Window
) -> None:
    enter(auction, x)
    enter(auction, operator, OPERATOR)
    x.says("who", "· " + HALVES[0])
    assert x.column("name")[:2] == HALVES
    assert operator.column("name", "resbody")[:2] == HALVES


def test_a_closing_of_3233_products(begin: Begin, operator: Window) -> None:
    auction = begin(set_up())
    auction.put(X, 1, bid(0, 1, 100))
    enter(auction, operator, OPERATOR)
    operator.noted()
    close_round(operator)
    operator.says("round", "Ended after round 1")
    assert json.loads(operator.run("return window.sent[0]"))["ties"] == []
    assert 0 < laid_out(operator, "pastbody") < MOST_ROWS
