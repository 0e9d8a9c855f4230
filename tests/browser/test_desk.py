"""The manager's desk: each act is typed in Chromium, and is then in the notices and announcements.

The manager has a browser only. The second person has another one.
"""
import contextlib
import json
import threading
import time
from collections.abc import Callable, Iterator
from typing import Any

import pytest

from tests.browser.auction import OPERATORS, Auction, X, Y, bid, example
from tests.browser.conftest import Begin
from tests.browser.people import ask_about, confirm, enter
from tests.browser.published import Published, utc
from tests.browser.window import Window
from tests.lib.setups import OPERATOR
from tests.lib.site import SECOND

SOON = {"between": 0, "notice": 0, "drain": 0, "missed": 100}


def managed(auction: Auction) -> Auction:
    """The auction with a conductor and a desk."""
    auction.begin_conductor(0, **SOON)
    auction.begin_desk()
    return auction


@pytest.fixture(scope="module")
def auction(begin_once: Begin) -> Auction:
    """An auction in round 1, for acts that leave it there."""
    return managed(begin_once(example("one_product"), has_ties=True))


@pytest.fixture
def desk(auction: Auction, operator: Window) -> Window:
    """The manager at the desk, with a window of round 1 that is open for an hour."""
    enter_desk(auction, operator, OPERATOR)
    return operator


def enter_desk(auction: Auction, window: Window, token: str) -> None:
    window.open(auction.address(OPERATORS), token)
    window.until("the desk answers", lambda: window.text("who").startswith("· "))


def announced(auction: Auction, words: str) -> bool:
    """Whether everyone is shown these words."""
    file = auction.folder / "public/announcements.json"
    return file.exists() and words in file.read_text()


def acts(auction: Auction) -> list[tuple[str, str]]:
    """The acts that were done, by the desk's log: what, and by whom."""
    lines = (auction.folder / "state/acts.jsonl").read_text().splitlines()
    found = [json.loads(line) for line in lines]
    return [(one["words"], one["who"]) for one in found if one["outcome"] == "done"]


def click(desk: Window, act: str, **typed: str) -> None:
    """Clicks an act, types its fields, and says yes."""
    desk.until(f"{act} is possible", lambda: is_possible(desk, act))
    desk.click("act-" + act)
    desk.until("it is asked about", lambda: desk.is_seen("question"))
    for name, text in typed.items():
        desk.write("field-" + name, text)


def yes(desk: Window) -> None:
    desk.at("yes").click()


def is_possible(desk: Window, act: str) -> bool:
    return desk.at("act-" + act).get_attribute("aria-disabled") == "false"


def timetable(opens: float, closes: float) -> str:
    """A timetable file with one window, in seconds from now, at whole ten seconds of UTC."""
    times = [utc((time.time() + moment) // 10 * 10) for moment in (opens, closes)]
    window = "-".join(text[11:19] for text in times)
    return json.dumps({"days": [{"date": times[0][:10], "windows": [window]}]})


# ---- Acts of one person


def test_an_announcement_is_shown_to_everyone(auction: Auction, desk: Window) -> None:
    click(desk, "announce", words="The help desk is at extension 105.")
    yes(desk)
    desk.says("say", "✓ Done: announce: The help desk is at extension 105.")
    assert announced(auction, "The help desk is at extension 105.")
    assert acts(auction)[-1] == ("announce: The help desk is at extension 105.", "operator")


def test_a_pause_with_one_click_and_its_reason(auction: Auction, desk: Window) -> None:
    """The button of the bar below pauses, while nothing else is to be done."""
    assert desk.text("send") == "Pause the auction …"
    desk.click("send")
    desk.until("it is asked about", lambda: desk.is_seen("question"))
    assert not desk.at("yes").is_enabled(), "everyone must read why"
    desk.write("field-words", "A fire alarm.")
    yes(desk)
    desk.says("say", "✓ Done: pause: A fire alarm.")
    assert announced(auction, "The auction is paused. A fire alarm.")
    desk.says("send", "Continue …")
    click(desk, "resume", minutes="5")
    yes(desk)
    desk.says("say", "✓ Done: continue in 5 minutes.")
    assert announced(auction, "The auction continues.")
    assert acts(auction)[-2:] == [
        ("pause: A fire alarm.", "operator"),
        ("continue in 5 minutes", "operator"),
    ]


def test_a_timetable_is_looked_at_and_taken_and_extended(auction: Auction, desk: Window) -> None:
    click(desk, "plan", days=timetable(3600, 7200))
    yes(desk)
    desk.says("asked", "Take 1 window, in your local time")
    yes(desk)
    desk.says("say", "✓ Done: take a new timetable.")
    assert announced(auction, "The timetable has 1 window from now on.")
    before = closes(auction)
    click(desk, "extend", minutes="30")
    yes(desk)
    desk.says("say", "✓ Done: give round 1 30 minutes more.")
    assert closes(auction) != before
    assert acts(auction)[-2:] == [
        ("take a new timetable", "operator"),
        ("give round 1 30 minutes more", "operator"),
    ]


def closes(auction: Auction) -> str:
    """When the window of round 1 closes."""
    page = json.loads((auction.folder / "public/timetable.json").read_text())
    found: str = page["windows"][0]["closes"]
    return found


def test_a_wrong_timetable_is_refused_in_words(auction: Auction, desk: Window) -> None:
    click(desk, "plan", days="2026-12-01 10:00-09:00")
    yes(desk)
    desk.says("say", "Nothing was done: days[0]: 10:00:00 to 09:00:00 ends before it begins.")


def test_what_was_done_is_listed(auction: Auction, desk: Window) -> None:
    click(desk, "announce", words="This is listed.")
    yes(desk)
    desk.until("it is listed", lambda: "operator: announce: This is listed." in desk.text("done"))


# ---- Stale pages, and two desks


def test_a_click_on_a_stale_page_does_nothing(auction: Auction, desk: Window, y: Window) -> None:
    """Between the question and the answer, somebody else does something."""
    click(desk, "announce", words="This comes too late.")
    enter_desk(auction, y, SECOND)
    click(y, "announce", words="This comes first.")
    yes(y)
    y.says("say", "✓ Done")
    yes(desk)
    desk.says("say", "⚠ Nothing was done: the auction has changed since this page showed it.")
    assert not announced(auction, "This comes too late.")
    assert acts(auction)[-1] == ("announce: This comes first.", "second")


# ---- Acts of two people


@pytest.fixture
def bidden(begin: Begin) -> Auction:
    """An auction with bids of X and Y in round 1."""
    auction = managed(begin(example("one_product"), has_ties=True))
    auction.put(X, 1, bid(0, 2, 100))
    return auction


def in_force(window: Window, count: str) -> Callable[[], bool]:
    return lambda: window.facts("submitted") == [["Bidders with submitted bids", count]]


def test_a_round_is_closed_early_by_two_and_winners_are_published(
    bidden: Auction, operator: Window, y: Window
) -> None:
    enter_desk(bidden, operator, OPERATOR)
    operator.until("X has bids", in_force(operator, "1 of 2"))
    operator.says("missing", "No bids from: Y.")
    operator.at("onlymissing").click()
    operator.becomes(lambda: operator.column("name", "bidbody"), ["Y"])
    bidden.put(Y, 1, bid(0, 1, 100))
    operator.says("missing", "All bidders with eligibility have submitted bids.")
    close_by_two(bidden, operator, y, 1)
    operator.says("round", "Round 2")
    first = json.loads((bidden.folder / "kept/closing-1.json").read_text())
    assert first["increment"] == 10
    operator.until("nobody has bids", in_force(operator, "0 of 2"))
    close_by_two(bidden, operator, y, 2)
    operator.says("round", "Ended after round 2")
    operator.says("send", "Publish the winners …")
    operator.click("send")
    operator.until("it is asked about", lambda: operator.is_seen("question"))
    yes(operator)
    operator.says("say", "It waits for a second person")
    confirm_by(y, "publish what each bidder has won")
    operator.says("send", "The auction has ended")
    assert (bidden.folder / "public/winners.json").exists()
    assert acts(bidden) == [
        ("close round 1 early, with 10 percent", "operator and second"),
        (
            "close round 2 early, with 10 percent, though nobody has submitted bids",
            "operator and second",
        ),
        ("publish what each bidder has won", "operator and second"),
    ]


def close_by_two(auction: Auction, operator: Window, y: Window, number: int) -> None:
    """The manager asks for a closing, and the second person confirms it."""
    operator.until("it is known", lambda: "…" in operator.text("ask"))
    ask_about(operator)
    assert not operator.at("yes").is_enabled(), "the round's number is not typed yet"
    confirm(operator)
    operator.says("say", "It waits for a second person")
    assert not (auction.folder / f"kept/closing-{number}.json").exists()
    if number == 1:
        enter_desk(auction, y, SECOND)
    confirm_by(y, f"close round {number} early", str(number))


def confirm_by(y: Window, words: str, typed: str = "") -> None:
    """The second person reads what is asked for, and confirms it."""
    y.says("waitingwords", words)
    y.click("confirm")
    y.until("it is asked about", lambda: y.is_seen("question"))
    if typed:
        y.write("field-typed", typed)
    yes(y)
    y.says("say", "✓ Done")


def test_nobody_confirms_its_own_act(bidden: Auction, operator: Window) -> None:
    enter_desk(bidden, operator, OPERATOR)
    operator.until("X has bids", in_force(operator, "1 of 2"))
    operator.click("ask")
    operator.until("it is asked about", lambda: operator.is_seen("question"))
    confirm(operator)
    operator.says("waitingwords", "It waits for a second person.")
    assert not operator.is_seen("confirm")
    operator.click("withdraw")
    operator.until("it is asked about", lambda: operator.is_seen("question"))
    yes(operator)
    operator.says("say", "✓ Withdrawn.")
    operator.until("nothing waits", lambda: not operator.is_seen("waiting"))


# ---- A round that waits for a word


@contextlib.contextmanager
def reported(auction: Auction, state: str, words: str) -> Iterator[None]:
    """A conductor's report about round 1, each half second, as a conductor writes it."""
    published, over = Published(auction), threading.Event()

    def report() -> None:
        while not over.wait(0.5):
            published.report(state, words, 1, [])

    published.report(state, words, 1, [])
    thread = threading.Thread(target=report)
    thread.start()
    try:
        yield
    finally:
        over.set()
        thread.join()


def test_a_round_that_waits_gets_the_word_of_two(begin: Begin, operator: Window, y: Window) -> None:
    auction = begin(example("one_product"), has_ties=True)
    auction.write_settings(0, **SOON)
    auction.begin_desk()
    with reported(auction, "held", "Round 1 is not closed: nobody has a sheet in force."):
        enter_desk(auction, operator, OPERATOR)
        operator.says("waits", "⚠ Conductor: Round 1 is not closed")
        operator.says("send", "Close round 1, which waits …")
        click(operator, "next", typed="1")
        operator.at("field-without_sheets").click()
        yes(operator)
        operator.says("say", "It waits for a second person")
        enter_desk(auction, y, SECOND)
        confirm_by(y, "though nobody has submitted bids", "1")
    words = "close round 1, which waits for a word, though nobody has submitted bids"
    assert acts(auction) == [(words, "operator and second")]


# ---- Increments


@pytest.fixture
def large(begin: Begin) -> Auction:
    """Version 2 with forty products of two groups."""
    setup: dict[str, Any] = example("two_products")
    setup.update(version=2, requirement=50, limit=100)
    one = {**setup["products"][0], "granule": 1}
    names = [f"{group}-{number:02}" for group in ("AL", "TX") for number in range(20)]
    setup["products"] = [{**one, "name": name} for name in names]
    auction = begin(setup)
    return auction


def test_increments_are_set_by_group_and_a_wrong_one_is_named(
    large: Auction, operator: Window
) -> None:
    enter(large, operator, OPERATOR)
    operator.at("each").click()
    operator.write("increment", "5")
    operator.write("incframefind", "TX")
    operator.says("incframecount", "20 of 40")
    operator.click("group")
    operator.write("increment", "10")
    operator.write("incframefind", "AL-07")
    operator.says("incframecount", "1 of 40")
    operator.find("#incbody input").send_keys("77")
    operator.click("ask")
    operator.says("say", "Not closed: an increment is not 1 to 50")
    operator.says("say", "AL-07 has 77.")
    operator.find("#incbody input").clear()
    operator.find("#incbody input").send_keys("20")
    operator.click("ask")
    operator.says("asked", "Clock prices rise by 5 to 20 percent.")


def test_a_wrong_line_of_a_file_of_increments_is_named(
    large: Auction, operator: Window, tmp_path: Any
) -> None:
    enter(large, operator, OPERATOR)
    operator.at("each").click()
    file = tmp_path / "increments.csv"
    file.write_text("product,percent\nAL-00,20\nAL-99,5\nTX-01,60\n")
    operator.at("up").send_keys(str(file))
    operator.until("two lines are wrong", lambda: operator.text("lines").count("line") == 2)
    assert "line 3: no product is called AL-99" in operator.text("lines")
    assert "line 4: the increment of TX-01 is 60" in operator.text("lines")
    file.write_text("AL-00;20\nTX-01;7\n")
    operator.at("up").send_keys(str(file))
    operator.says("say", "2 increments are taken from increments.csv.")
    operator.click("ask")
    operator.says("asked", "Clock prices rise by 7 to 20 percent.")
