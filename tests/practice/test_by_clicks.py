"""A first auction by clicks: from `git clone` to the end."""
import dataclasses
import os
import pathlib
import re
import signal
import subprocess
import time
from collections.abc import Callable, Iterator

import pytest

from tests.browser import scripts
from tests.browser.auction import busy
from tests.browser.window import Browser, Window
from tests.lib.paths import TOP
from tests.practice.conftest import Start
from tests.practice.ending import CHECKS, Ending
from tests.practice.practice import TOKEN, Practice

pytestmark = pytest.mark.needs("chromium", "chromedriver", "selenium")

MOST = 60  # seconds from `git clone` to the first bid; on a quiet machine it takes five


def money(text: str) -> int:
    """The first number of dollars in a text."""
    found = re.search(r"\d[\d,]*", text)
    assert found, text
    return int(found[0].replace(",", ""))


def enter(window: Window, practice: Practice) -> None:
    window.open(practice.address(), TOKEN)
    window.until("the page has the round", lambda: "ound" in window.text("round"))
    window.until("the table is there", lambda: window.rows("body"))


def values_of(practice: Practice) -> list[list[int]]:
    return list(Ending(practice).read("values.json").values())


def bid(window: Window, values: list[list[int]], number: int) -> int:
    """Types bids by the values: in round 1, blocks worth the opening price; later, those worth the
    clock price. Returns how many bids there are.
    """
    rows = window.rows("body")
    for place, (row, worth) in enumerate(zip(rows, values)):
        wanted = sum(value >= money(row["clock"]) for value in worth)
        blocks = wanted if number == 1 else money(row["held"])
        if wanted >= blocks:
            window.bid(place, blocks, "")
        else:
            window.bid(place, wanted, max(money(row["start"]), worth[wanted]))
    return len(rows)


def submit(window: Window, count: int) -> None:
    """Submits, and waits until that was said, also if the next round begins at once."""
    window.run(scripts.SAID, "message")
    window.submit()
    words = "1 bid in force since" if count == 1 else f"{count} bids in force since"
    window.until(words, lambda: any(words in text for text in window.run("return window.said")))


@dataclasses.dataclass
class Played:
    """A practice that was played by clicks."""

    practice: Practice
    seconds: float = 0  # from `git clone` to the first bid
    rounds: int = 1
    won: str = ""
    payments: list[str] = dataclasses.field(default_factory=list)


def play(window: Window, played: Played, pictures: pathlib.Path | None) -> None:
    """Plays the rounds after the first one, and looks at the end."""
    values = values_of(played.practice)
    while True:
        before = ("", f"Round {played.rounds}")
        window.until("the next round", lambda: window.text("round") not in before)
        if window.text("round").startswith("Ended"):
            break
        played.rounds += 1
        count = bid(window, values, played.rounds)
        if pictures and played.rounds == 4:
            window.picture(pictures / "practice.png", 1440, 620)
            window.size(1440, 900)
        submit(window, count)
    played.practice.until("All files are in")
    window.until("the gain is announced", lambda: "your gain is" in window.text("announced"))
    played.won = window.text("todo")
    window.open(played.practice.address("results.html"))
    window.until("the winners", lambda: len(window.rows("wonbody")) == 4)
    rows = window.rows("wonbody")
    played.payments = [row["pays"] for row in rows if row["name"] == "You"]
    window.until("all rounds are there", lambda: window.text("progress") == "")
    if pictures:
        window.picture(pictures / "results.png", 1440)


@pytest.fixture(scope="module")
def played(
    program: pathlib.Path,
    first_browser: Browser,
    tmp_path_factory: pytest.TempPathFactory,
    request: pytest.FixtureRequest,
) -> Iterator[Played]:
    """Clones, starts a practice, enters, and plays all its rounds."""
    pictures = request.config.getoption("pictures", None)
    work = tmp_path_factory.mktemp("clicks")
    window = first_browser.window(1440, 900)  # a person has a browser open already
    begun = time.monotonic()
    subprocess.run(["git", "clone", "-q", TOP, work / "clone"], check=True, timeout=120)
    words = ("--quick", "--seed", "4", "--program", str(program))
    practice = Practice(work / "clone", work / "folder", *words)
    try:
        practice.until("Your token")
        enter(window, practice)
        submit(window, bid(window, values_of(practice), 1))
        played = Played(practice, time.monotonic() - begun)
        play(window, played, pictures and pictures.absolute())
        yield played
    finally:
        window.close()
        practice.stop()


def test_the_first_bid_is_accepted_soon(played: Played) -> None:
    assert played.seconds <= MOST * busy()


def test_an_auction_is_played_to_its_end(played: Played) -> None:
    assert played.rounds > 1


@pytest.mark.parametrize("check", CHECKS, ids=lambda check: check.__name__)
def test_the_end_fits_its_files(played: Played, check: Callable[[Ending], None]) -> None:
    check(Ending(played.practice))


def test_page_terminal_and_public_page_say_one_payment(played: Played) -> None:
    won = re.search(r"You won \d+ blocks? for (\$[\d,]+)\.", played.won)
    assert won
    assert f"and pay {won[1]}. The blocks are worth" in played.practice.said
    assert played.payments == [won[1]]


# ---- Other practices


@pytest.fixture
def six(start: Start, tmp_path: pathlib.Path) -> Practice:
    """A practice of six products, whose rounds close as soon as everyone has bid."""
    practice = start(tmp_path / "folder", "--quick", "--seed", "7", "--products", "6")
    practice.until("Your token")
    return practice


def test_the_page_says_what_blocks_are_worth(six: Practice, x: Window) -> None:
    x.size(1440, 900)
    enter(x, six)
    cells = x.run(
        "return [...document.querySelectorAll('#body .c-worth span')].map(each => each.title)"
    )
    found = [[money(text) for text in re.findall(r"\d[\d,]*\d", cell)] for cell in cells]
    assert found == values_of(six)


def test_a_row_above_its_worth_is_marked(six: Practice, x: Window) -> None:
    enter(x, six)
    products, values = Ending(six).setup["products"], values_of(six)
    place = next(p for p, row in enumerate(values) if 0 < len(row) < products[p]["cap"])
    blocks = len(values[place])
    x.bid(place, blocks, "")
    assert x.row(place) == ""
    x.bid(place, blocks + 1, "")
    assert x.row(place) == "Its last block is worth less than the clock price."


def server_of(practice: Practice) -> int:
    """The number of the server's process."""
    words = ["ps", "-o", "pid=", "--ppid", str(practice.process.pid)]
    done = subprocess.run(words, capture_output=True, text=True, check=True)
    return int(done.stdout.split()[0])


def test_a_submission_to_a_server_that_stands_still(six: Practice, x: Window) -> None:
    """Nothing is green until it is known whether the bids arrived, and the page finds out."""
    enter(x, six)
    x.bid(0, 1, "")
    server = server_of(six)
    os.kill(server, signal.SIGSTOP)
    try:
        x.submit()
        x.says("link", "No answer since")
        assert x.kind("todo") == "bad"
        x.says("message", "not known whether your bids")
    finally:
        os.kill(server, signal.SIGCONT)
    ends = ("did arrive", "Round 1 is closed")
    x.until("it is known", lambda: any(words in x.text("message") for words in ends))
    assert x.kind("message") != "bad"


def test_a_page_asks_for_the_timetable_until_it_has_the_round(six: Practice, x: Window) -> None:
    """Not only at its next turn, for which bids would have to wait."""
    enter(x, six)
    x.run(scripts.WITHOUT_TURNS)
    x.until("the last turn has ended", lambda: x.run("return window.ended"))
    x.bid(0, 1, "")
    x.submit()
    x.says("round", "Round 2")
    x.until_open()


def test_a_closing_while_one_types(six: Practice, x: Window) -> None:
    """The entry and the cursor stay, and one message says what changed."""
    enter(x, six)
    x.bid(0, 1, "")
    x.submit()
    x.says("round", "Round 2")
    x.field("quantity", 1).click()
    x.run(scripts.SAID, "message")
    x.until_open()
    x.chord("\ue009", "\ue007")  # Ctrl+Enter
    x.confirm()
    x.press("2")
    x.says("round", "Round 3")
    assert x.value("quantity", 1) == "2"
    assert x.run(scripts.STOP) == "quantity1.0"
    x.says("message", "Round 2 is closed. Your processed demand")
