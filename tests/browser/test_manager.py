"""A manager with a browser only holds an auction that `auction init` made, and each act that was
typed is in the record.
"""
import json
import pathlib
import sys
from collections.abc import Callable, Iterator
from typing import Any

import pytest
from selenium.common.exceptions import ElementNotInteractableException

from auction.desk.acts import PARTS
from auction.formats.notices import read_notices
from tests.browser.people import ask_about, confirm
from tests.browser.test_desk import click, confirm_by, timetable, yes
from tests.browser.window import Window
from tests.lib import setups
from tests.lib.folders import open_folder
from tests.lib.http import compact
from tests.lib.paths import AUCTION, auction
from tests.lib.ports import free_port
from tests.lib.tls import Client
from tests.lib.waiting import wait_for
from tests.mock.held import PATIENCE, Held, Ports

pytestmark = [pytest.mark.timeout(600), pytest.mark.root, pytest.mark.slow]

BLOCKS = {"X": 2, "Y": 1}  # of a supply of 2, so round 1 does not end the auction
BOTH = "operator and second"
# What the manager types, in order, and who is named for it.
TYPED = [
    *(("plan", "operator"), ("extend", "operator"), ("announce", "operator")),
    *(("pause", "operator"), ("resume", "operator"), ("plan", "operator"), ("close", BOTH)),
    *(("plan", "operator"), ("next", BOTH), ("winners", BOTH)),
]
# What the desk says of an act that comes too late: the conductor did something, or time did.
PASSED = ("the auction has changed", "would open within", "are in the past")
FIRE, HELP = "A fire alarm.", "The help desk is at extension 105."


@pytest.fixture
def held(program: pathlib.Path, openapi: pathlib.Path) -> Iterator[Held]:
    """What `auction init` and the start of the units make."""
    bidders = [setups.bidder(name, f"{name}TokenOfTheReal1", 2) for name in BLOCKS]
    setup = setups.setup([setups.product("A", 2, 100, cap=2)], bidders)
    with open_folder() as folder:
        (folder / "real.json").write_text(json.dumps(setup))
        found = Held(folder / "auction", Ports(free_port(), free_port(), free_port()), program)
        try:
            found.make(folder / "real.json")
            found.begin()
            found.start(sys.executable, AUCTION, "desk", found.folder)
            wait_for("the desk listens", (found.folder / "inner/desk.sock").exists, PATIENCE)
            yield found
        finally:
            found.stop()


def enter(held: Held, window: Window, name: str) -> None:
    """Enters the desk with the token of a letter that `auction init` wrote."""
    token = (held.folder / f"{name}.token").read_text().strip()
    window.open(f"http://127.0.0.1:{held.ports.inside}/operator.html", token)
    window.until("the desk answers", lambda: window.text("who").startswith("· "))


def insist(desk: Window, answer: str, act: Callable[[], None]) -> None:
    """Does an act until the desk answers so: again if what it is for has passed meanwhile. Then
    the desk says so, or the page takes its question back before a person answers.
    """

    def is_done() -> bool:
        desk.run("document.getElementById('say').textContent = ''")
        try:
            act()
        except ElementNotInteractableException:
            return False
        desk.until("the desk answers", lambda: desk.text("say"))
        said = desk.text("say")
        assert answer in said or any(words in said for words in PASSED), said
        return answer in said

    wait_for(answer, is_done, PATIENCE)


def do(desk: Window, act: str, done: str, **typed: str) -> None:
    """Does an act of one person."""

    def once() -> None:
        click(desk, act, **typed)
        yes(desk)

    insist(desk, f"✓ Done: {done}", once)


def plan(desk: Window, opens: float, closes: float) -> None:
    """Types a timetable of one window, in seconds from now, looks at it, and takes it."""

    def is_shown() -> bool:
        return "Take 1 window, in your local time" in desk.text("asked") or bool(desk.text("say"))

    def once() -> None:
        click(desk, "plan", days=timetable(opens, closes))
        yes(desk)
        desk.until("it is shown", is_shown)
        if desk.is_seen("question"):
            yes(desk)

    insist(desk, "✓ Done: take a new timetable.", once)


def bid(held: Held, number: int) -> None:
    """All bidders bid, as soon as the window is open."""
    for name, blocks in BLOCKS.items():
        bids = [{"price": 100, "product": 0, "quantity": blocks}]
        body = compact({"bids": bids, "round": number})

        def is_taken() -> bool:
            client = Client(held.ports.outside)
            reply = client.ask("PUT", "/v1/me/bids", held.tokens[name], body=body)
            assert reply.status in (200, 409), reply
            return reply.status == 200

        wait_for(f"a sheet of {name}", is_taken, PATIENCE, every=1)


def ask_second(desk: Window, act: Callable[[], None]) -> None:
    """Asks for an act that needs a second person."""
    insist(desk, "It waits for a second person", act)


def hold(held: Held, desk: Window, second: Window) -> None:
    """Holds an auction of two rounds by the pages of the desk. Each act is done once at least."""

    def close() -> None:
        ask_about(desk)
        confirm(desk)

    def close_without_bids() -> None:
        click(desk, "next", typed="2")
        desk.at("field-without_sheets").click()
        yes(desk)

    def publish() -> None:
        desk.click("send")
        desk.until("it is asked about", lambda: desk.is_seen("question"))
        yes(desk)

    enter(held, desk, "operator")
    enter(held, second, "second")
    plan(desk, 3600, 7200)
    do(desk, "extend", "give round 1 30 minutes more.", minutes="30")
    do(desk, "announce", f"announce: {HELP}", words=HELP)
    do(desk, "pause", f"pause: {FIRE}", words=FIRE)
    do(desk, "resume", "continue in 5 minutes.", minutes="5")
    plan(desk, 40, 3600)
    bid(held, 1)
    desk.says("missing", "All bidders with eligibility have submitted bids.")
    desk.until("the closing is possible", lambda: "…" in desk.text("ask"))
    ask_second(desk, close)
    confirm_by(second, "close round 1 early", "1")
    desk.says("round", "Round 2")
    plan(desk, 40, 50)  # in which nobody bids
    desk.says("send", "Close round 2, which waits …")
    ask_second(desk, close_without_bids)
    confirm_by(second, "though nobody has submitted bids", "2")
    desk.says("send", "Publish the winners …")
    ask_second(desk, publish)
    confirm_by(second, "publish what each bidder has won")
    desk.says("send", "The auction has ended")


def acts_in(record: pathlib.Path) -> list[dict[str, Any]]:
    """The acts of persons in the record's chain of notices."""
    entries = read_notices(record / "notices.jsonl", (record / "commitment.json").read_bytes())
    return [entry.says for entry in entries if entry.kind == "act"]


def test_a_manager_with_a_browser_only_holds_an_auction_and_each_act_is_in_the_record(
    held: Held, operator: Window, y: Window
) -> None:
    hold(held, operator, y)
    assert {act for act, _ in TYPED} == PARTS.keys(), "each act of the desk is typed"
    held.stop()
    files, record = [held.folder / name for name in ("setup.json", "auction.journal")], "record"
    done = auction("record", *files, held.folder / "public", held.folder / record)
    assert done.returncode == 0, done.stderr
    found = acts_in(held.folder / record)
    assert [(one["what"], one["who"]) for one in found] == TYPED
    assert [one["round"] for one in found if one["what"] in ("close", "next")] == [1, 2]
    texts = (held.folder / record / "announcements.json").read_text()
    assert HELP in texts and FIRE in texts
    verdict = auction("verify", *files, held.folder / record)
    assert verdict.returncode == 0, verdict.stdout
