"""Three bidders in three browsers, in an auction of two rounds by its timetable."""
import contextlib
import dataclasses
import json
import pathlib
from collections.abc import Iterator

from tests.browser.published import shows
from tests.browser.window import Browser, Window
from tests.package.machine import ADDRESS, Machine

NAMES = ("X", "Y", "Z")
IN_FORCE = "1 bid in force since"


@dataclasses.dataclass
class Bidder:
    """A person at a browser."""

    browser: Browser
    window: Window

    def enter(self, token: str) -> None:
        self.window.open(ADDRESS, token)
        self.window.until("the form for the token is gone", lambda: not self.window.is_seen("door"))

    def bid(self, number: int, product: int, quantity: int, price: int | str = "") -> None:
        """Types a bid in an open round."""
        self.window.says("round", f"Round {number}")
        shows(self.window, "Open until .*")
        self.window.bid(product, quantity, price)

    def submit(self) -> None:
        self.window.says("link", "Connected")
        self.window.send(IN_FORCE)

    def end(self) -> str:
        """Waits for the end. Returns what the page says then."""
        self.window.says("round", "Ended after round 2")
        self.window.says("todo", "The auction has ended.")
        return self.window.text("todo")

    def faults(self) -> list[str]:
        """What the browser has logged, but for a server that is gone, as in a reboot."""
        others = ("favicon", "status of", "net::ERR_")
        return [line for line in self.browser.log() if not any(one in line for one in others)]


@dataclasses.dataclass
class Played:
    """What the bidders saw at the end, and what their pages did wrong."""

    ends: dict[str, str]
    faults: dict[str, list[str]]


@contextlib.contextmanager
def browsers(folder: pathlib.Path) -> Iterator[dict[str, Bidder]]:
    """A browser for each bidder."""
    with contextlib.ExitStack() as stack:
        bidders = {}
        for name in NAMES:
            (folder / name).mkdir()
            browser = Browser(folder / name)
            stack.callback(browser.end)
            bidders[name] = Bidder(browser, browser.window())
        yield bidders


def tokens_of(root: pathlib.Path) -> dict[str, str]:
    """Each bidder's token, as its letter has it."""
    setup = json.loads((root / "srv/auction/setup.json").read_text())
    return {one["name"]: one["token"] for one in setup["bidders"]}


def play(machine: Machine, bidders: dict[str, Bidder]) -> Played:
    """Bids in both rounds. The machine reboots in the window of round 1, after X has bid."""
    x, y, z = (bidders[name] for name in NAMES)
    machine.await_step("it takes a timetable")
    for name, token in tokens_of(machine.root).items():
        bidders[name].enter(token)
    y.bid(1, 0, 1)
    x.bid(1, 0, 2, 100)
    x.submit()
    machine.await_step("X's receipt is signed")
    y.window.until("Y's page reports an outage", lambda: y.window.kind("link") == "bad")
    machine.await_step("after the reboot all units run again")
    y.submit()  # what it had typed before
    z.bid(1, 1, 1)
    z.submit()
    machine.await_step("it opens the window of round 2")
    x.bid(2, 0, 1, 106)
    x.submit()
    for one in (y, z):
        one.window.says("round", "Round 2")
        one.window.click("keep")
        one.submit()
    machine.await_step("the auction ends")
    ends = {name: one.end() for name, one in bidders.items()}
    (machine.root / "ended").touch()
    return Played(ends, {name: one.faults() for name, one in bidders.items()})
