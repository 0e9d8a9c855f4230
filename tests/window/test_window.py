"""Two rounds through real nginx with a conductor, against bidders whose requests come late."""
import datetime
import json
import pathlib
import subprocess
import sys
import time
from collections.abc import Iterator
from typing import NamedTuple

import pytest

from auction.conductor.clock import utc
from tests.lib.conducted import small_setup
from tests.lib.folders import open_folder
from tests.lib.paths import AUCTION, auction
from tests.lib.setups import OPERATOR
from tests.lib.site import Site
from tests.lib.tls import Client, Reply
from tests.lib.waiting import wait_for

pytestmark = [pytest.mark.needs("nginx", "openssl"), pytest.mark.slow]
X, Y = "X" * 16, "Y" * 16
LENGTH, DRAIN, PUBLISH = 10, 10, 30


def sheet(number: int, quantity: int, price: int) -> bytes:
    bids = [{"price": price, "product": 0, "quantity": quantity}]
    return json.dumps({"bids": bids, "round": number}).encode()


class SlowSheet:
    """A sheet that comes byte by byte, so that nginx does not give up on it."""

    def __init__(self, site: Site, token: str, body: bytes) -> None:
        self.client, self.left = Client(site.outside), body
        head = f"PUT /v1/me/bids HTTP/1.1\r\nhost: localhost\r\nauthorization: Bearer {token}\r\n"
        self.client.send(f"{head}content-length: {len(body)}\r\n\r\n".encode())

    def send_until(self, end: float) -> None:
        """Sends a byte each few seconds until a time."""
        while (rest := end - time.time()) > 0:
            self.send_one()
            time.sleep(min(4, rest))

    def send_one(self) -> None:
        """Sends one byte, if it is not the last."""
        if len(self.left) > 1:
            self.client.send(self.left[:1])
            self.left = self.left[1:]

    def reply(self) -> Reply:
        """The reply once the rest is sent."""
        self.client.send(self.left)
        return self.client.reply()


class Conducted:
    """A site whose auction a conductor runs."""

    def __init__(self, site: Site) -> None:
        self.site, self.folder = site, site.folder
        (self.folder / "gate/open").unlink()
        (self.folder / "operator.token").write_text(OPERATOR + "\n")
        settings = {
            "url": f"http://127.0.0.1:{site.inside}",
            "port": site.server_port,
            "setup": "setup.json",
            "token": "operator.token",
            "journal": "auction.journal",
            "between": 10,
            "notice": 0,
            "drain": DRAIN,
            "missed": 50,
            "bidders": f"https://localhost:{site.outside}",
            "authority": "cert.pem",
            "publish": PUBLISH,
        }
        (self.folder / "conductor.json").write_text(json.dumps(settings))
        with open(self.folder / "conductor.said", "wb") as said:
            words = [sys.executable, str(AUCTION), "run", str(self.folder)]
            quiet = subprocess.DEVNULL
            site.keep(subprocess.Popen(words, stdin=quiet, stdout=said, stderr=said))
        wait_for("the conductor runs", lambda: "unplanned" in self.said(), 30)

    def said(self) -> str:
        return (self.folder / "conductor.said").read_text()

    def command(self, word: str, *words: object) -> None:
        ran = auction(word, self.folder, *words)
        assert ran.returncode == 0, ran.stdout + ran.stderr

    def plan(self, begin: int, *windows: tuple[int, int]) -> None:
        """Gives the conductor these windows, in seconds after the beginning."""
        times = [(utc(begin + first), utc(begin + last)) for first, last in windows]
        days = [
            {"date": first[:10], "windows": [f"{first[11:19]}-{last[11:19]}"]}
            for first, last in times
        ]
        (self.folder / "timetable.json").write_text(json.dumps({"days": days}))
        self.command("plan", self.folder / "timetable.json")

    def put(self, token: str, body: bytes) -> Reply:
        return Client(self.site.outside).ask("PUT", "/v1/me/bids", token, body=body)

    def window(self, number: int) -> dict[str, int]:
        return json.loads((self.folder / "state/plan.json").read_text())["windows"][str(number)]


class Look(NamedTuple):
    """What a bidder sees of the status: when after the window's end, its status, and its round."""

    after: float
    status: int
    number: int | None


class Seen(NamedTuple):
    """What was seen in two windows of round 1.

    In the first one X's sheet became whole 24 s after the end, and nobody else had one. The second
    one was given by `extend`; then both bid, and X's sheet of round 2 ended before its window.
    """

    alone: Reply
    said_alone: str
    looks: list[Look]
    early: Reply
    closes: int
    said: str
    published: dict[str, str]


def bid_alone(run: Conducted, begin: int) -> tuple[Reply, str]:
    """The only bidder's sheet becomes whole after the inner door is shut."""
    slow = SlowSheet(run.site, X, sheet(1, 2, 100))
    slow.send_until(begin + LENGTH + DRAIN + 2)
    held = "held: Round 1 is not closed: nobody has a sheet in force"
    wait_for("the round is held", lambda: held in run.said(), 10)
    slow.send_until(begin + LENGTH + 24)
    reply = slow.reply()
    time.sleep(4)
    return reply, run.said()


def looks_until(run: Conducted, end: float, closes: int, early: SlowSheet) -> Iterator[Look]:
    """Asks for the status three times a second, while a sheet of the next round comes slowly."""
    client, moment = Client(run.site.outside), 0.0
    while time.time() < end:
        if time.time() >= moment:
            early.send_one()
            moment = time.time() + 4
        reply = client.ask("GET", "/v1/status")
        page = json.loads(reply.page)
        yield Look(time.time() - closes, reply.status, page.get("round"))
        time.sleep(0.3)


@pytest.fixture(scope="module")
def seen(program: pathlib.Path) -> Iterator[Seen]:
    with open_folder() as folder:
        site = Site(folder / "site", program, small_setup())
        try:
            yield play(Conducted(site))
        finally:
            site.stop()


def play(run: Conducted) -> Seen:
    """Plays the two windows."""
    begin = int(time.time()) // 10 * 10 + 10
    run.plan(begin, (0, LENGTH), (120, 140))
    time.sleep(max(0.0, begin + 3 - time.time()))
    alone, said_alone = bid_alone(run, begin)
    run.command("extend", "0.2")
    body = sheet(1, 2, 100)
    wait_for("the window is open", lambda: run.put(Y, body).status == 200, 15, every=0.2)
    early = SlowSheet(run.site, X, sheet(2, 2, 110))
    assert run.put(X, sheet(1, 1, 100)).status == 200
    closes = run.window(1)["closes"]
    looks = list(looks_until(run, closes + PUBLISH + 3, closes, early))
    published = json.loads((run.folder / "public/rounds/1.json").read_text())
    return Seen(alone, said_alone, looks, early.reply(), closes, run.said(), published)


def test_a_sheet_that_becomes_whole_after_the_drain_is_refused(seen: Seen) -> None:
    assert seen.alone.refuses(409, "window")


def test_a_round_that_is_held_without_sheets_stays_so(seen: Seen) -> None:
    assert "Round 1 is closed" not in seen.said_alone


def test_the_curtain_is_drawn_from_the_windows_end_until_its_time(seen: Seen) -> None:
    drawn = [look.after for look in seen.looks if look.status == 503]
    assert drawn
    assert -0.5 < drawn[0] < 2
    assert PUBLISH - 2 < drawn[-1] < PUBLISH + 0.5


def test_nobody_sees_the_new_round_before_the_curtain_lifts(seen: Seen) -> None:
    assert {look.number for look in seen.looks} == {1, 2, None}
    assert all(look.after > PUBLISH - 0.5 for look in seen.looks if look.number == 2)


def test_the_round_is_closed_behind_the_curtain(seen: Seen) -> None:
    line = next(line for line in seen.said.splitlines() if "closed: Round 1 is closed" in line)
    at = datetime.datetime.fromisoformat(line.split()[0]).timestamp()
    assert seen.closes + DRAIN <= at < seen.closes + PUBLISH


def test_the_results_are_published_at_the_second_at_which_the_curtain_lifts(seen: Seen) -> None:
    at = datetime.datetime.fromisoformat(seen.published["published"]).timestamp()
    assert seen.closes + PUBLISH <= at <= seen.closes + PUBLISH + 1


def test_a_sheet_of_the_next_round_that_ends_before_its_window_is_refused(seen: Seen) -> None:
    assert seen.early.refuses(409, "window")
