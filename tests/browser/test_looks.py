"""How the pages look: at any width, in light and in the dark, in narrow and in wide letters, for a
screen reader and for the keyboard. With `--pictures DIR`, it saves pictures for the documents.
"""
import json
import pathlib
import re
import time
from collections.abc import Callable, Iterator

import pytest
from selenium.webdriver.common.keys import Keys

from tests.browser import scripts
from tests.browser.auction import OPERATORS, Auction, X, Y, Z, bid, example
from tests.browser.conftest import Begin, window_of
from tests.browser.people import enter
from tests.browser.published import Published, utc
from tests.browser.window import Browser, Window
from tests.lib.setups import OPERATOR
from tests.lib.waiting import wait_for

PRICES = {"North-1": 1200, "North-2": 900, "Middle-1": 1450}
PRICES |= {"Middle-2": 640, "South-1": 2100, "South-2": 380}
WIDTHS = (360, 768, 1024, 1270, 1600)
SIZES = ((1440, 900), (1280, 720), (1024, 768), (640, 360), (390, 844), (320, 568))
ROLES = {"textbox", "searchbox", "button", "combobox", "checkbox", "region", "image", "slider"}
ROLES |= {"dialog", "grid", "table", "tab", "tabpanel", "columnheader", "rowheader"}
LEAST_CONTRAST = 4.5
DIGEST = "d" * 64


def four_rounds(begin: Begin) -> Auction:
    """Round 5 of an auction of three bidders. X has bids in force, and has seen all rounds."""
    one = {"units": 1, "supply": 2, "cap": 2}
    products = [{"name": name, **one, "opening": price} for name, price in PRICES.items()]
    setup = example("two_products")
    bidders = [{**each, "eligibility": 5} for each in setup["bidders"]]
    auction = begin({**setup, "products": products, "bidders": bidders})
    first = {X: {0: 2, 2: 1, 5: 1}, Y: {0: 1, 1: 1, 2: 1}, Z: {1: 1, 3: 1, 4: 2}}
    opening = list(PRICES.values())
    for token, wanted in first.items():
        auction.put(token, 1, *(bid(p, blocks, opening[p]) for p, blocks in wanted.items()))
    auction.close(1)
    for number in range(2, 5):
        clock = [each["next"] for each in auction.ask(f"v1/rounds/{number - 1}")["products"]]
        for place, token in enumerate((X, Y)):
            demands = auction.ask("v1/results")["bidders"][place]["demands"]
            kept = {p: blocks for p, blocks in enumerate(demands) if blocks}
            if token == X and number == 4:
                kept[2] = 0
            auction.put(token, number, *(bid(p, blocks, clock[p]) for p, blocks in kept.items()))
        auction.close(number)
    return auction


@pytest.fixture(scope="module")
def auction(begin_once: Begin) -> Auction:
    auction = four_rounds(begin_once)
    day = Published(auction)
    for number in range(1, 5):
        day.close_round(number, DIGEST)
    day.announce("Round 5 is open. The help desk is at extension 105.")
    day.timetable(5, *[(-60 * left - 60, -60 * left) for left in (5, 4, 3, 2)], (-60, 900))
    day.report("open", "Round 5 is open until 16:00:00 UTC.", 5, ["X"])
    return auction


def high_prices(begin: Begin) -> Auction:
    setup = example("one_product")
    setup["products"][0]["opening"] = 10**12
    return begin(setup)


@pytest.fixture(scope="module")
def steep(begin_once: Begin) -> Auction:
    return high_prices(begin_once)


@pytest.fixture(scope="module")
def ended(begin_once: Begin) -> Auction:
    """After the end, in which X and Y have won a block each."""
    auction = begin_once(example("one_product"))
    auction.put(X, 1, bid(0, 1, 100))
    auction.put(Y, 1, bid(0, 1, 100))
    auction.close(1)
    day = Published(auction)
    day.close_round(1, DIGEST)
    day.timetable(1, (-60, -1), ended=True)
    won = [{"name": name, "demands": [1], "pays": 100} for name in ("X", "Y")]
    day.put("public/winners.json", {"round": 1, "bidders": won})
    return auction


@pytest.fixture(scope="module")
def managed(begin_once: Begin) -> Auction:
    """Round 2 of six products, with a window of an hour. X has bids in force, and Y has none. The
    second person asks to close the round early.
    """
    one = {"units": 1, "supply": 2, "cap": 2}
    setup = example("two_products")
    setup["products"] = [{"name": name, **one, "opening": PRICES[name]} for name in PRICES]
    setup["bidders"] = [{**each, "eligibility": 5} for each in setup["bidders"]]
    auction = begin_once(setup, has_ties=True)
    first = {X: {0: 2, 2: 1, 5: 1}, Y: {0: 1, 1: 1, 2: 1}, Z: {1: 1, 3: 1, 4: 2}}
    for token, wanted in first.items():
        prices = list(PRICES.values())
        auction.put(token, 1, *(bid(p, blocks, prices[p]) for p, blocks in wanted.items()))
    auction.close(1)
    auction.begin_conductor(0, between=0, notice=0, drain=0, missed=100)
    auction.begin_desk()
    auction.ask_desk("plan", lambda: {"timetable": timetable(50, 3600)})
    auction.ask_desk("announce", lambda: {"words": "The help desk is at extension 105."})
    clock = [each["next"] for each in auction.ask("v1/rounds/1")["products"]]
    for token in (X, Z):
        held = first[token]
        auction.put(token, 2, *(bid(p, blocks, clock[p]) for p, blocks in held.items()))
    wait_for("the window is open", lambda: auction.desk("state")["state"] == "open", 120, 0.5)
    early: dict[str, object] = {"increments": [10], "without_sheets": False}
    assert auction.ask_desk("close", lambda: early) == "waits"
    return auction


def timetable(opens: float, closes: float) -> str:
    """A timetable file with one window, in seconds from now, at whole ten seconds of UTC."""
    times = [utc((time.time() + moment) // 10 * 10) for moment in (opens, closes)]
    window = "-".join(text[11:19] for text in times)
    return json.dumps({"days": [{"date": times[0][:10], "windows": [window]}]})


def desk_with_an_act_that_waits(request: pytest.FixtureRequest, window: Window) -> None:
    enter(request.getfixturevalue("managed"), window, OPERATOR)
    window.says("waitingwords", "Second asks to close round 2 early")
    window.says("missing", "No bids from: Y")
    window.says("done", "announce: The help desk")


def desks_question(request: pytest.FixtureRequest, window: Window) -> None:
    desk_with_an_act_that_waits(request, window)
    window.click("act-plan")
    window.until("it is asked about", lambda: window.is_seen("question"))


def desks_question_with_a_number(request: pytest.FixtureRequest, window: Window) -> None:
    desk_with_an_act_that_waits(request, window)
    window.click("confirm")
    window.until("it is asked about", lambda: window.is_seen("question"))


def bidders_door(request: pytest.FixtureRequest, window: Window) -> None:
    window.open(request.getfixturevalue("auction").address())
    window.until("it takes a token", lambda: window.find("#door button").is_enabled())


def operators_door(request: pytest.FixtureRequest, window: Window) -> None:
    window.open(request.getfixturevalue("auction").address(OPERATORS), "W" * 16)
    window.says("say", "unknown token")


def bidders_page(request: pytest.FixtureRequest, window: Window) -> None:
    enter(request.getfixturevalue("auction"), window)
    window.says("latest", "help desk")


def wrong_bid(request: pytest.FixtureRequest, window: Window) -> None:
    bidders_page(request, window)
    window.bid(0, 1, 1)
    window.says("message", "1 bid has an error")


def closed_rounds(request: pytest.FixtureRequest, window: Window) -> None:
    bidders_page(request, window)
    window.view("past")
    window.until("the chart is there", lambda: window.find("#chart svg"))


def announcements(request: pytest.FixtureRequest, window: Window) -> None:
    bidders_page(request, window)
    window.view("times")


def highest_prices(request: pytest.FixtureRequest, window: Window) -> None:
    enter(request.getfixturevalue("steep"), window)
    window.bid(0, 2, "")


def after_the_end(request: pytest.FixtureRequest, window: Window) -> None:
    enter(request.getfixturevalue("ended"), window)


def operators_page(request: pytest.FixtureRequest, window: Window) -> None:
    enter(request.getfixturevalue("auction"), window, OPERATOR)
    window.says("missing", "No bids from: Y")


def operators_highest_prices(request: pytest.FixtureRequest, window: Window) -> None:
    enter(request.getfixturevalue("steep"), window, OPERATOR)


def public_page(request: pytest.FixtureRequest, window: Window) -> None:
    window.open(request.getfixturevalue("ended").address("results.html"))
    window.until("the winners are there", lambda: len(window.rows("wonbody")) == 2)


def refused_token(request: pytest.FixtureRequest, window: Window) -> None:
    window.open(request.getfixturevalue("auction").address(), "W" * 16)
    window.says("say", "unknown token")


def product_by_round(request: pytest.FixtureRequest, window: Window) -> None:
    closed_rounds(request, window)
    window.until("all rounds are there", lambda: window.text("pastprogress") == "")
    window.find("#pastbody button").click()


def review(request: pytest.FixtureRequest, window: Window) -> None:
    bidders_page(request, window)
    window.bid(0, 1, "")
    window.click("review")
    window.until("it is there", lambda: window.is_seen("question"))


def menu(request: pytest.FixtureRequest, window: Window) -> None:
    bidders_page(request, window)
    window.click("menuhead")


def columns(request: pytest.FixtureRequest, window: Window) -> None:
    bidders_page(request, window)
    window.find("#columns summary").click()


def public_page_of_round_5(request: pytest.FixtureRequest, window: Window) -> None:
    window.open(request.getfixturevalue("auction").address("results.html"))
    window.says("caption", "Results of round 4")
    window.until("all rounds are there", lambda: window.text("progress") == "")


def public_page_before_round_1(request: pytest.FixtureRequest, window: Window) -> None:
    window.open(request.getfixturevalue("steep").address("results.html"))
    window.says("caption", "Prices of round 1")


State = Callable[[pytest.FixtureRequest, Window], None]
STATES: list[State] = [
    bidders_page,
    wrong_bid,
    closed_rounds,
    product_by_round,
    announcements,
    review,
    menu,
]
STATES += [columns, highest_prices, after_the_end, refused_token]
STATES += [operators_page, operators_highest_prices]
STATES += [public_page, public_page_of_round_5, public_page_before_round_1]
STATES += [bidders_door, operators_door]
STATES += [desk_with_an_act_that_waits, desks_question, desks_question_with_a_number]


@pytest.fixture(scope="module", params=STATES, ids=lambda state: state.__name__.replace("_", " "))
def opened(request: pytest.FixtureRequest, first_browser: Browser) -> Iterator[Window]:
    """A window that shows a state of a page. The tests of the state share it."""
    for window in window_of(first_browser):
        request.param(request, window)
        yield window


@pytest.fixture
def page(opened: Window) -> Window:
    """The window, as wide and high as at first."""
    opened.size(1280, 900)
    opened.settle()
    return opened


def test_nothing_is_cut_off_or_beyond_the_window(page: Window) -> None:
    """At each width, in narrow letters and in wide ones."""
    found = []
    for wide in WIDTHS:
        page.size(wide, 900)
        for is_wide in (False, True):
            page.run(scripts.WIDE_LETTERS, is_wide)
            page.settle()
            letters = "wide" if is_wide else "its own"
            found += [f"{each} at {wide}, {letters} letters" for each in page.run(scripts.CUT)]
    page.run(scripts.WIDE_LETTERS, False)
    assert found == []


@pytest.mark.parametrize("dark", [False, True], ids=["light", "dark"])
def test_each_text_differs_from_its_background(page: Window, dark: bool) -> None:
    page.dark(dark)
    page.settle()
    try:
        ratio, what = page.run(scripts.CONTRAST)
        assert ratio >= LEAST_CONTRAST, what
    finally:
        page.dark(False)


@pytest.mark.parametrize("dark", [False, True], ids=["light", "dark"])
def test_edges_of_fields_and_shapes_of_charts_are_seen(page: Window, dark: bool) -> None:
    page.dark(dark)
    page.settle()
    try:
        assert page.run(scripts.EDGES) == []
    finally:
        page.dark(False)


@pytest.mark.parametrize("wide", [1280, 360])
def test_an_audit_finds_nothing(page: Window, wide: int) -> None:
    page.size(wide, 900)
    page.settle()
    assert page.run(scripts.AUDIT) == []


def test_letters_are_as_large_as_the_user_wants(page: Window) -> None:
    """Also those of bids, messages, and buttons. Charts have letters of their own size."""
    assert page.run(scripts.UNSCALED) == []


def test_forced_colors_keep_each_mark(page: Window) -> None:
    page.cdp("Emulation.setEmulatedMedia", features=[{"name": "forced-colors", "value": "active"}])
    try:
        page.settle()
        assert page.run(scripts.UNMARKED) == []
    finally:
        page.cdp("Emulation.setEmulatedMedia", features=[])


def seen_nodes(window: Window) -> list[tuple[str, str]]:
    """Role and name of what a screen reader meets."""
    nodes = window.cdp("Accessibility.getFullAXTree")["nodes"]
    return [
        (node["role"]["value"], node.get("name", {}).get("value", "").strip())
        for node in nodes
        if not node["ignored"]
    ]


def test_each_field_button_and_table_has_a_name(page: Window) -> None:
    met = [(role, name) for role, name in seen_nodes(page) if role in ROLES]
    assert met and [role for role, name in met if not name] == []


def test_there_is_one_first_heading_and_one_for_each_section(page: Window) -> None:
    first, sections, labelled, headed = page.run(scripts.HEADINGS)
    assert first == 1
    assert sections == labelled, "each section is labelled"
    assert headed > 0


def test_each_button_and_field_is_large_enough_for_a_finger(page: Window) -> None:
    assert page.run(scripts.SMALL) == []


@pytest.mark.parametrize("wide", [1280, 360])
def test_a_table_is_one_also_drawn_as_cards(
    request: pytest.FixtureRequest, x: Window, wide: int
) -> None:
    x.size(wide, 900)
    bidders_page(request, x)
    x.settle()
    roles = {role for role, _ in seen_nodes(x)}
    assert {"grid", "row", "rowheader", "columnheader", "gridcell"} <= roles


@pytest.mark.parametrize("wide, high", SIZES, ids=[f"{wide}x{high}" for wide, high in SIZES])
def test_each_field_has_a_word_that_is_seen(
    request: pytest.FixtureRequest, x: Window, wide: int, high: int
) -> None:
    x.size(wide, high)
    bidders_page(request, x)
    x.settle()
    assert x.run(scripts.UNNAMED) == []


# ---- The two bars


@pytest.mark.parametrize("wide, high", SIZES, ids=[f"{wide}x{high}" for wide, high in SIZES])
def test_both_bars_are_in_sight(
    request: pytest.FixtureRequest, x: Window, wide: int, high: int
) -> None:
    x.size(wide, high)
    wrong_bid(request, x)
    x.settle()
    assert x.run(scripts.IN_SIGHT) == []
    assert not x.run("return document.documentElement.scrollWidth > innerWidth")


@pytest.mark.parametrize("wide, high", SIZES, ids=[f"{wide}x{high}" for wide, high in SIZES])
def test_no_element_with_the_cursor_is_hidden(
    request: pytest.FixtureRequest, x: Window, wide: int, high: int
) -> None:
    x.size(wide, high)
    bidders_page(request, x)
    x.settle()
    x.run("document.querySelector('#body [data-field=quantity]').focus()")
    hidden = []
    for key in [Keys.ARROW_DOWN] * 7 + [Keys.ARROW_UP] * 4 + [Keys.PAGE_DOWN] * 2:
        x.press(key)
        hidden.append(x.run(scripts.HIDDEN))
    x.run("document.getElementById('round').focus()")
    for _ in range(16):
        x.press(Keys.TAB)
        hidden.append(x.run(scripts.HIDDEN))
    assert [name for name in hidden if name] == []


@pytest.mark.parametrize("wide, high", [(1440, 900), (390, 844)], ids=["laptop", "phone"])
@pytest.mark.parametrize(
    "state", [product_by_round, review, public_page_of_round_5], ids=["rounds", "review", "public"]
)
def test_tab_goes_to_elements_that_are_seen(
    request: pytest.FixtureRequest, x: Window, state: State, wide: int, high: int
) -> None:
    x.size(wide, high)
    state(request, x)
    x.settle()
    hidden = []
    for _ in range(16):
        x.press(Keys.TAB)
        hidden += [x.run(scripts.HIDDEN), x.run(scripts.UNSEEN) and x.run(scripts.STOP)]
    assert [name for name in hidden if name] == []


@pytest.mark.parametrize(
    "wide, high, most", [(360, 740, 400), (1024, 768, 350)], ids=["phone", "tablet"]
)
def test_the_first_row_is_near_the_top(
    request: pytest.FixtureRequest, x: Window, wide: int, high: int, most: float
) -> None:
    x.size(wide, high)
    bidders_page(request, x)
    x.settle()
    script = "return document.querySelector('#body tr:not(.room)').getBoundingClientRect().top"
    assert x.run(script) < most


@pytest.mark.parametrize("wide", [1600, 1024, 390])
def test_without_values_no_worth_is_shown(
    request: pytest.FixtureRequest, x: Window, wide: int
) -> None:
    x.size(wide, 900)
    bidders_page(request, x)
    x.settle()
    script = "return [...document.querySelectorAll('.c-worth')].some(e => e.checkVisibility())"
    assert not x.run(script)


def test_25_rows_are_seen_of_a_long_table(begin: Begin, x: Window) -> None:
    setup = example("two_products")
    one = setup["products"][0]
    setup["products"] = [{**one, "name": f"P-{place}"} for place in range(60)]
    x.size(1440, 900)
    enter(begin(setup), x)
    x.settle()
    x.until("25 whole rows", lambda: x.run(scripts.SEEN_ROWS) >= 25)


# ---- The pictures of the documents


def test_pictures(auction: Auction, x: Window, pictures: pathlib.Path | None) -> None:
    """Round 5, wide, and on a phone in the dark with an error at a row."""
    x.size(1440, 900)
    enter(auction, x)
    x.bid(0, 1, int(re.sub(r"\D", "", x.column("clock")[0])) - 40)
    assert x.row(0).startswith("Reduce"), "the picture shows the effect of a bid"
    if pictures:
        x.picture(pictures / "bidder.png", 1440, 620)
    x.size(390, 844)
    x.dark(True)
    x.bid(0, 1, 1)
    x.group("held")
    x.settle()
    assert "price" in x.row(0), "the picture shows an error at its row"
    if pictures:
        x.picture(pictures / "bidder_narrow.png", 390, 844)
    x.dark(False)


def test_picture_of_the_desk(
    request: pytest.FixtureRequest, operator: Window, pictures: pathlib.Path | None
) -> None:
    """Round 2, in which a bidder is missing and an act waits for a second person."""
    operator.size(1440, 900)
    desk_with_an_act_that_waits(request, operator)
    operator.says("left", ":")
    operator.says("send", "Confirm …")
    if pictures:
        operator.picture(pictures / "operator.png", 1440, 900)


def test_pictures_of_the_review_and_of_closed_rounds(
    auction: Auction, x: Window, pictures: pathlib.Path | None
) -> None:
    x.size(1440, 900)
    enter(auction, x)
    x.bid(0, 1, "")
    x.click("review")
    x.says("asked", "Your 3 bids for round 5")
    if pictures:
        x.picture(pictures / "review.png", 1440, 620)
    x.at("no").click()
    x.view("past")
    x.until("all rounds are there", lambda: x.text("pastprogress") == "")
    x.find("#pastbody button").click()
    x.says("charted", "North-1: posted price")
    if pictures:
        x.picture(pictures / "rounds.png", 1440, 860)
