"""Four people in browsers and a program play a mock auction. It is put away, and then they play
the real one on the same machine.
"""
import json
import pathlib
from collections.abc import Iterator

import pytest

from tests.browser.conftest import first_browser  # noqa: F401
from tests.browser.window import Browser
from tests.lib.folders import open_folder
from tests.lib.paths import auction
from tests.lib.ports import free_port
from tests.mock.held import PEOPLE, PROGRAM, Clerk, Held, Ports, Program, real_setup

pytestmark = [
    pytest.mark.needs("chromium", "chromedriver", "selenium", "nginx", "openssl"),
    pytest.mark.timeout(1200),
    pytest.mark.root,
    pytest.mark.slow,
]

BANNER = "Mock auction: nothing is sold."
PAGES = ("index.html", "results.html")


@pytest.fixture(scope="module")
def place(openapi: pathlib.Path) -> Iterator[pathlib.Path]:
    with open_folder() as folder:
        (folder / "real.json").write_text(json.dumps(real_setup()))
        yield folder


def hold(held: Held, browser: Browser, folder: pathlib.Path) -> str:
    """Holds the auction to its end, and publishes the winners. Returns what the program said."""
    clerks, number = [Clerk(browser, held, name) for name in PEOPLE], 1
    program = Program(held, folder, held.tokens[PROGRAM])
    try:
        while not (held.public("timetable.json") or {"ended": False})["ended"]:
            held.open(number)
            for clerk in clerks:
                clerk.bid(number)
            program.says(f'"round": {number}}} True')
            held.shut(number)
            number += 1
        program.says(f"won {PROGRAM}")
        done = auction("winners", held.folder)
        assert done.returncode == 0, done.stderr
        return program.said.read_text()
    finally:
        program.stop()
        for clerk in clerks:
            clerk.window.close()


def each_announcement(held: Held) -> list[str]:
    return [one["text"] for one in held.public("announcements.json")["announcements"]]


def marks(held: Held, browser: Browser) -> list[bool]:
    """Whether each page says that it is of a mock auction, before anyone has entered."""
    window, found = browser.window(), []
    addresses = [held.address + page for page in PAGES]
    for address in (*addresses, f"http://127.0.0.1:{held.ports.inside}/operator.html"):
        window.open(address)
        window.until("the page is there", lambda: window.run("return document.title"))
        banner = window.run("return document.getElementById('mock')?.textContent ?? ''")
        title = window.run("return document.title").startswith("MOCK")
        assert (banner == BANNER) is title
        found.append(title)
    window.close()
    return found


def refused_at_the_door(held: Held, browser: Browser, token: str) -> str:
    """What the bidder's page says of a token of the other auction."""
    window = browser.window()
    window.open(held.address, token)
    window.says("say", "⚠")
    words = window.text("say")
    window.close()
    return words


def test_a_mock_auction_is_held_and_put_away_and_then_the_real_one(
    place: pathlib.Path, program: pathlib.Path, first_browser: Browser  # noqa: F811
) -> None:
    browser, ports = first_browser, Ports(free_port(), free_port(), free_port())
    held = Held(place / "auction", ports, program)
    try:
        held.make(place / "real.json", "--mock")
        tokens = held.tokens
        held.begin()
        assert marks(held, browser) == [True] * 3
        real = real_setup()["bidders"][0]["token"]
        assert "This is the mock auction." in refused_at_the_door(held, browser, real)
        said = hold(held, browser, place / "mock-program")
        assert "This is a mock auction: nothing is sold." in said
        assert all(text.startswith("Mock auction. ") for text in each_announcement(held))
        check_end(held, is_mock=True)
        held.stop()

        done = auction("clear", held.folder)
        assert done.returncode == 0, done.stderr
        held.folder.rename(place / "mock")

        held.make(place / "real.json")
        held.begin()
        assert marks(held, browser) == [False] * 3
        words = refused_at_the_door(held, browser, tokens[PEOPLE[0]])
        assert "This token is of the mock auction." in words
        other = Program(held, place / "other-program", tokens[PROGRAM])
        other.says("The token is of the mock auction, and the address of the real auction.")
        other.stop()
        said = hold(held, browser, place / "real-program")
        assert "mock" not in said.lower()
        assert not any("ock auction" in text for text in each_announcement(held))
        check_end(held, is_mock=False)
    finally:
        held.stop()


def check_end(held: Held, is_mock: bool) -> None:
    """The block goes to each person, at the price at which the program left."""
    winners = held.public("winners.json")
    won = {one["name"]: (one["demands"], one["pays"]) for one in winners["bidders"]}
    assert won == {**{name: ([1], 105) for name in PEOPLE}, PROGRAM: ([0], 0)}
    for name in ("winners.json", "timetable.json", "commitment.json"):
        assert held.public(name).get("mock", False) is is_mock
    folder = held.folder
    done = auction("verify", folder / "setup.json", folder / "auction.journal", folder / "public")
    line = next(line for line in done.stdout.splitlines() if line.startswith("ok     commitment"))
    assert (BANNER in line) is is_mock
