"""The day around the auction: timetable, time left, announcements, the conductor's report."""
import re
import time

import pytest

from tests.browser import scripts
from tests.browser.auction import OPERATORS, Auction, X, Y, bid, busy, example
from tests.browser.conftest import Begin
from tests.browser.people import enter
from tests.browser.published import TIME, Published, shows
from tests.browser.window import Window
from tests.lib.setups import OPERATOR


@pytest.fixture(scope="module")
def auction(begin_once: Begin) -> Auction:
    """An auction in whose round 1 no bids are accepted."""
    return begin_once(example("one_product"))


@pytest.fixture
def day(auction: Auction) -> Published:
    """What is published of the auction: nothing at first."""
    for name in ("public/timetable.json", "public/announcements.json", "operator/conductor.json"):
        (auction.folder / name).unlink(missing_ok=True)
    return Published(auction)


def announced(window: Window) -> list[str]:
    """The announcements, without their times."""
    lines = window.run(
        "return [...document.querySelectorAll('#announced li')].map(each => each.textContent)"
    )
    return [re.sub(f"^{TIME} ", "", line) for line in lines]


# ---- The bidder's page


def test_without_a_timetable_the_page_has_no_time(day: Published, x: Window) -> None:
    enter(day.auction, x)
    assert x.text("left") == "" and not x.is_seen("times")


def test_before_a_round_opens_the_page_says_when(day: Published, x: Window) -> None:
    day.timetable(1, (600, 1200), (2000, 2600))
    enter(day.auction, x)
    shows(x, f"opens at {TIME}", r"(10:00|9:\d\d)")
    x.says("todo", "Prepare your bids, and submit them when the round opens.")
    assert re.fullmatch(r"Opens in (10:00|9:\d\d)", x.text("send"))
    rounds = x.run("return [...document.querySelectorAll('#windows li')].map(e => e.textContent)")
    assert [line.split(":")[0] for line in rounds] == ["Round 1", "Round 2"]


def test_bids_outside_the_window_are_refused(day: Published, x: Window) -> None:
    gate = day.auction.folder / "gate" / "open"
    enter(day.auction, x)
    gate.unlink()
    try:
        x.bid(0, 1, "")
        x.send(
            "Refused: the round is not open for bids: see the timetable, and submit your bids when "
            "it opens."
        )
    finally:
        gate.touch()


def test_an_open_round_has_its_end_and_what_to_do(day: Published, x: Window) -> None:
    day.timetable(1, (-60, 3723))
    enter(day.auction, x)
    shows(x, f"Open until {TIME}", r"1:0[12]:\d\d")
    x.says("todo", "Submit bids: without any you are out of the auction.")
    assert re.match(r"1:0[12]:\d\d · Round 1 · X", x.run("return document.title"))


def test_the_time_left_is_by_the_servers_clock(day: Published, x: Window) -> None:
    """In a browser whose own clock is wrong: never more than is left, and not much less."""
    closes = int(time.time()) + 75
    day.timetable(1, (-60, closes - time.time()))
    enter(day.auction, x)
    x.run(scripts.WRONG_CLOCK)
    x.run(scripts.DRAWN)
    shows(x, "Open until .*", r"1:(0\d|1[0-5])")
    x.until("the time is drawn again", lambda: x.run("return window.drawn"))
    words, drawn = x.run("return window.drawn")
    minutes, seconds = map(int, words.split(":"))
    left, really = minutes * 60 + seconds, closes - drawn / 1000
    assert really - 3 * busy() < left <= really


def test_the_last_minute_stands_out_and_is_read_out(day: Published, x: Window) -> None:
    day.timetable(1, (-60, 80))
    enter(day.auction, x)
    shows(x, "Open until .*", r"1:[012]\d")
    x.run(scripts.SAID, "called")
    x.becomes(lambda: x.kind("clock"), "last")
    x.becomes(lambda: x.kind("todo"), "bad")
    x.until(
        "it is read out",
        lambda: "1 minute left in round 1." in x.run("return window.said"),
    )
    assert re.match(r"⚠ 0:\d\d · Round 1 · X", x.run("return document.title"))
    day.timetable(1, (-60, 30))
    x.says("called", "20 seconds left in round 1.")


@pytest.mark.parametrize(
    "windows, paused, words, left, todo",
    [
        (
            [(-60, -1)],
            None,
            r"Closed for bids\. The results follow\.",
            "Closed",
            "You submitted no",
        ),
        (
            [(-60, -1, 600)],
            None,
            rf"Closed for bids\. Results appear at {TIME}\.",
            "Closed",
            "You submitted no",
        ),
        ([(-60, 600)], "A fire alarm.", r"A fire alarm\.", "Paused", "The auction is paused"),
        ([], None, r"The next time will be announced\.", "–", "Round 1 is not open yet."),
    ],
    ids=["shut", "shut, with a time for results", "paused", "without a time"],
)
def test_a_round_that_takes_no_bids(
    day: Published,
    x: Window,
    windows: list[tuple[float, ...]],
    paused: str | None,
    words: str,
    left: str,
    todo: str,
) -> None:
    day.timetable(1, *windows, paused=paused)
    enter(day.auction, x)
    shows(x, words, left)
    x.bid(0, 2, "")
    x.says("todo", todo)


def test_a_closing_round_says_when_its_results_appear(day: Published, x: Window) -> None:
    day.timetable(1, (-60, -1, 600))
    enter(day.auction, x)
    day.auction.withhold()
    try:
        pattern = re.compile(rf"The round is closing; results appear at {TIME}\.")
        x.until("when its results appear", lambda: pattern.fullmatch(x.text("todo")))
    finally:
        day.auction.show()


# ---- Announcements


def test_announcements_are_listed_the_newest_first_as_text(day: Published, x: Window) -> None:
    help_desk, html = "The help desk is at extension 105.", "<b>Round 1</b> is open & longer."
    for text in (help_desk, html):
        day.announce(text)
    day.timetable(1)
    enter(day.auction, x)
    x.becomes(lambda: announced(x), [html, help_desk])
    assert re.fullmatch(f"Announcement 2, {TIME}: {html}", x.text("latest"))
    assert x.run("return document.querySelectorAll('#times b').length") == 0


def test_a_new_announcement_is_added_and_counted(day: Published, x: Window) -> None:
    day.announce("The first one.")
    day.timetable(1)
    enter(day.auction, x)
    x.becomes(lambda: announced(x), ["The first one."])
    day.announce("A second one.")
    day.timetable(1)
    x.becomes(lambda: announced(x), ["A second one.", "The first one."])
    assert x.text("news") == "2"


def test_the_last_announcement_leads_to_all_of_them(day: Published, x: Window) -> None:
    day.announce("The first one.")
    day.timetable(1)
    enter(day.auction, x)
    x.until("it is there", lambda: x.is_seen("latest"))
    x.click("latest")
    assert x.is_seen("announced")


# ---- The operator's page

OPENED = "Round 1 is open until 16:00:00 UTC."
NO_SHEET = "Round 1 has no sheet. Type `next` or `extend`."


@pytest.fixture
def desk(day: Published, operator: Window) -> Window:
    """The operator's page with a conductor's report: only X has submitted bids."""
    day.timetable(1, (-60, 600))
    day.report("open", OPENED, 1, ["X"])
    enter(day.auction, operator, OPERATOR)
    operator.says("waits", f"Conductor: {OPENED}")
    return operator


def test_the_operator_sees_who_has_submitted_bids(desk: Window) -> None:
    desk.says("missing", "No bids from: Y.")
    assert desk.facts("submitted") == [["Bidders with submitted bids", "1 of 2"]]
    shows(desk, "Open until .*", r"\d+:\d\d")


def test_the_question_before_a_closing_names_who_is_missing(desk: Window) -> None:
    desk.click("ask")
    desk.says("asked", "1 of 2 bidders with eligibility have submitted bids. No bids from: Y.")
    desk.says("asked", f"The conductor would close it by itself: {OPENED}")


def test_a_conductor_that_waits_for_a_person_stands_out(day: Published, desk: Window) -> None:
    day.report("held", NO_SHEET, 1, [])
    desk.says("waits", f"⚠ Conductor: {NO_SHEET}")
    assert desk.kind("waits") == "fault"
    desk.click("ask")
    desk.says("asked", "NO bidder has submitted bids, so the auction ends without a sale.")
    assert desk.text("yes") == "Close it without any bids"
    assert "would close it" not in desk.text("asked")


def test_what_the_conductor_does_not_know_is_not_shown(day: Published, desk: Window) -> None:
    day.report("gone", "The server does not answer.", None, None)
    desk.says("waits", "The server does not answer.")
    assert not desk.is_seen("submitted")
    day.report("open", "Round 1 is open.", 1, ["X", "Y"])
    desk.says("missing", "All bidders with eligibility have submitted bids.")


def test_an_old_report_is_not_shown(desk: Window) -> None:
    desk.run("const now = performance.now.bind(performance); performance.now = () => now() + 20000")
    desk.says("waits", "The conductor has not reported since")
    assert not desk.is_seen("submitted")


def test_nobody_else_sees_the_report(day: Published) -> None:
    day.report("open", OPENED, 1, ["X"])
    auction = day.auction
    outside = auction.address()
    paths = ("conductor.json", "public/conductor.json", "operator/conductor.json")
    found = [auction.head(outside + path)[0] for path in paths]
    inside = auction.address(OPERATORS).replace(OPERATORS, paths[0])
    assert [*found, auction.head(inside)[0]] == [404, 404, 404, 401]


def test_bidders_that_are_out_are_not_missing(begin: Begin, operator: Window) -> None:
    """Z has not bid in round 1, so it has no eligibility in round 2."""
    auction = begin(example("two_products"))
    auction.put(X, 1, bid(0, 2, 100))
    auction.put(Y, 1, bid(0, 1, 100))
    auction.close(1)
    day = Published(auction)
    day.timetable(2, (-600, -300), (-60, 600))
    day.report("open", OPENED, 2, ["X"])
    enter(auction, operator, OPERATOR)
    operator.says("missing", "No bids from: Y.")
    assert operator.facts("submitted") == [["Bidders with submitted bids", "1 of 2"]]
