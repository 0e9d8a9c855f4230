"""The public page: closed rounds, their chart and digest, and at the end the winners."""
import pathlib
import re

import pytest

from tests.browser.auction import X, Y, bid, example
from tests.browser.conftest import Begin
from tests.browser.published import TIME, Published
from tests.browser.window import Window

PAGE = "results.html"


def begun(begin: Begin) -> Published:
    setup = example("two_products")
    setup["bidders"][0]["eligibility"] = 3
    return Published(begin(setup))


def first_closed(day: Published) -> None:
    """Closes and publishes round 1."""
    day.auction.put(X, 1, bid(0, 2, 100), bid(1, 1, 100))
    day.auction.put(Y, 1, bid(0, 1, 100))
    day.auction.close(1)
    day.close_round(1, "a" * 64)
    day.timetable(2, (-60, -1), (10, 600))


def last_closed(day: Published) -> None:
    """Closes and publishes round 2, which is the last one."""
    day.auction.put(X, 2, bid(0, 1, 106), bid(1, 1, 110))
    day.auction.put(Y, 2, bid(0, 1, 110))
    day.auction.close(2)
    day.close_round(2, "b" * 64)
    day.timetable(2, (-60, -1), (-60, -1), ended=True)


def name_winners(day: Published) -> None:
    won = [("X", [1, 1], 206), ("Y", [1, 0], 106), ("Z", [0, 0], 0)]
    bidders = [{"name": name, "demands": demands, "pays": pays} for name, demands, pays in won]
    day.put("public/winners.json", {"round": 2, "bidders": bidders})


@pytest.fixture(scope="module")
def after_one(begin_once: Begin) -> Published:
    day = begun(begin_once)
    first_closed(day)
    return day


@pytest.fixture(scope="module")
def at_the_end(begin_once: Begin) -> Published:
    day = begun(begin_once)
    first_closed(day)
    last_closed(day)
    name_winners(day)
    return day


def look(day: Published, window: Window, words: str) -> None:
    window.open(day.auction.address(PAGE))
    window.says("round", words)


OPENING = [
    ["A", "2", "$100", "$100", "–", "–", "–", "–"],
    ["B", "2", "$100", "$100", "–", "–", "–", "–"],
]


def test_before_the_first_closing_the_page_is_full(begin: Begin, x: Window) -> None:
    """Products, supply, and opening prices; and then the first closed round."""
    day = begun(begin)
    day.timetable(1, (-60, 600))
    look(day, x, "Round 1")
    x.becomes(lambda: x.facts("facts")[:2], [["Closed rounds", "0"], ["Products", "2"]])
    x.becomes(lambda: x.cells("pastbody"), OPENING)
    first_closed(day)
    x.says("round", "Round 2")
    x.says("caption", "Results of round 1")
    x.becomes(lambda: x.column("posted", "pastbody"), ["$100", "$100"])


def test_without_a_timetable_the_page_is_full_too(begin: Begin, x: Window) -> None:
    day = begun(begin)
    look(day, x, "Round 1")
    x.becomes(lambda: x.cells("pastbody"), OPENING)
    day.auction.put(X, 1, bid(0, 2, 100), bid(1, 1, 100))
    day.auction.put(Y, 1, bid(0, 1, 100))
    day.auction.close(1)
    day.close_round(1, "a" * 64)
    look(day, x, "Round 2")
    x.says("caption", "Results of round 1")


def test_the_auction_has_its_published_name(begin: Begin, x: Window) -> None:
    day = begun(begin)
    day.put("public/names.json", {"title": "Harbor berths 2026", "products": {}, "bidders": {}})
    for page in (PAGE, ""):
        x.open(day.auction.address(page))
        x.says("auction", "Harbor berths 2026")


def test_the_newest_round_comes_first_and_others_can_be_chosen(
    at_the_end: Published, x: Window
) -> None:
    look(at_the_end, x, "Ended after round 2")
    x.says("caption", "Results of round 2")
    asked = x.run(
        "return performance.getEntriesByType('resource').map(each => each.name)"
        ".filter(name => name.includes('/rounds/')).map(name => name.split('/').pop())"
    )
    assert asked[0] == "2.json"
    x.until("round 1 is loaded", lambda: x.text("progress") == "")
    x.choose("which", "1")
    x.says("caption", "Results of round 1")
    x.becomes(lambda: x.column("clock", "pastbody"), ["$100", "$100"])


def test_a_product_with_the_cursor_keeps_it_when_rounds_come(begin: Begin, x: Window) -> None:
    day = begun(begin)
    first_closed(day)
    look(day, x, "Round 2")
    x.becomes(lambda: x.column("name", "pastbody"), ["A", "B"])
    x.run("document.querySelector('#pastbody tr:nth-of-type(2) button').focus()")
    last_closed(day)
    x.says("caption", "Results of round 2")
    assert x.run("return document.activeElement.textContent") == "B"


def test_products_are_found_and_sorted(after_one: Published, x: Window) -> None:
    look(after_one, x, "Round 2")
    x.becomes(lambda: x.column("name", "pastbody"), ["A", "B"])
    x.write("pastfind", "b")
    x.becomes(lambda: x.column("name", "pastbody"), ["B"])
    assert x.text("pastcount") == "1 of 2"
    x.click("pastclear")
    x.becomes(lambda: x.column("name", "pastbody"), ["A", "B"])
    x.find("#past thead .c-excess button").click()
    x.becomes(lambda: x.column("name", "pastbody"), ["B", "A"])
    assert x.find("#past thead .c-excess").get_attribute("aria-sort") == "ascending"


def test_a_closed_round_has_prices_demand_and_excess(after_one: Published, x: Window) -> None:
    look(after_one, x, "Round 2")
    rows = [
        ["A", "2", "$100", "$100", "$100", "3", "1", ""],
        ["B", "2", "$100", "$100", "$100", "≤ 2", "no", ""],
    ]
    x.becomes(lambda: x.cells("pastbody"), rows)
    x.says("digest", "a" * 64, "Published at")


def test_the_state_of_the_auction_is_added_up(after_one: Published, x: Window) -> None:
    look(after_one, x, "Round 2")
    facts = [
        ["Closed rounds", "1"],
        ["Products with excess demand", "1 of 2"],
        ["Excess demand, in blocks", "1"],
        ["Total at posted prices", "$400", "if all blocks are sold"],
    ]
    x.becomes(lambda: x.facts("facts"), facts)


def test_the_chart_has_the_excess_demand(after_one: Published, x: Window) -> None:
    look(after_one, x, "Round 2")
    title = "return document.querySelector('#chart title')?.textContent ?? ''"
    x.until("it is there", lambda: "round 1: 100 dollars, 1" in x.run(title))


def test_no_winner_is_named_before_they_are_published(begin: Begin, x: Window) -> None:
    day = begun(begin)
    first_closed(day)
    last_closed(day)
    look(day, x, "Ended after round 2")
    x.says("standing", "The auction has ended.")
    assert not x.is_seen("wonpart")
    name_winners(day)
    x.until("then they are", lambda: x.is_seen("wonpart"))


def test_the_winners_and_the_proceeds_are_shown(at_the_end: Published, x: Window) -> None:
    look(at_the_end, x, "Ended after round 2")
    won = [["X", "2", "$206", "A: 1, B: 1"], ["Y", "1", "$106", "A: 1"], ["Z", "0", "$0", "none"]]
    x.becomes(lambda: x.cells("wonbody"), won)
    assert x.facts("facts")[4] == ["Proceeds", "$312", "what the winners pay"]


def test_all_rounds_are_saved_as_csv(
    at_the_end: Published, x: Window, downloads: pathlib.Path
) -> None:
    look(at_the_end, x, "Ended after round 2")
    x.becomes(lambda: len(x.rows("pastbody")), 2)
    x.click("save")
    head = "round,product,supply,start,clock,posted,demand,next"
    lines = ["1,A,2,100,100,100,3,110", "1,B,2,100,100,100,,110"]
    lines += ["2,A,2,100,110,106,,", "2,B,2,100,110,100,,"]
    file = downloads / "rounds.csv"
    x.until("as CSV", lambda: file.read_text().splitlines() == [head, *lines])


def test_of_the_server_the_page_asks_for_the_products_only(
    at_the_end: Published, x: Window
) -> None:
    look(at_the_end, x, "Ended after round 2")
    x.becomes(lambda: len(x.rows("wonbody")), 3)
    names = x.run(
        "return performance.getEntriesByType('resource').map(each => new URL(each.name).pathname)"
    )
    assert {name for name in names if name.startswith("/v1/")} == {"/v1/products"}


def test_a_page_that_is_withheld_is_no_outage(begin: Begin, x: Window) -> None:
    day = begun(begin)
    day.auction.withhold()
    day.timetable(1, (-60, -1, 600))
    x.open(day.auction.address(PAGE))
    pattern = re.compile(rf"The round is closing; results appear at {TIME}\.")
    x.until("it is said when they appear", lambda: pattern.fullmatch(x.text("link")))
    day.auction.show()
    x.says("round", "Round 1")
    x.becomes(lambda: x.text("link"), "")
