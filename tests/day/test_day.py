"""An auction by timetable for real, while the conductor is killed every second or two.

Server, nginx, and conductor are real, and the bidders come over TLS. Two bidders send a sheet once
or twice a second all day. The conductor is killed by SIGKILL, and started again at once.

The gate plays one round of ten seconds. `pytest tests/day --rounds 4 --window 20` plays more. With
three rounds or more there are also an announcement, an extension, and a pause. A round takes some
20 seconds.
"""
import contextlib
import http.client
import json
import pathlib
import random
import subprocess
from collections.abc import Iterator
from typing import Any, NamedTuple

import pytest

from tests.day.bidding import Sent
from tests.day.day import Day
from tests.lib.folders import open_folder
from tests.lib.setups import OPERATOR

pytestmark = [pytest.mark.needs("nginx", "openssl"), pytest.mark.slow]


class Played(NamedTuple):
    """A day that has ended, and the sheets that were sent in it."""

    day: Day
    sent: list[Sent]


@pytest.fixture(scope="module")
def played(program: pathlib.Path, request: pytest.FixtureRequest) -> Iterator[Played]:
    rounds = request.config.getoption("--rounds", 1)
    window = request.config.getoption("--window", 10)
    with open_folder() as folder:
        day = Day(program, folder / "site", rounds, window, random.Random(1))
        try:
            yield Played(day, day.run())
        finally:
            day.stop()


@pytest.fixture(scope="module")
def audit(played: Played) -> list[str]:
    """The lines that `clock_auction audit` prints of the journal."""
    site = played.day.site
    assert site.program is not None
    words: list[str | pathlib.Path] = [site.program, "audit"]
    words += ["--setup", site.folder / "setup.json", "--journal", site.folder / "auction.journal"]
    ran = subprocess.run(words, capture_output=True, text=True, check=True)
    return ran.stdout.splitlines()


def opened(day: Day, number: int) -> float:
    """When the conductor opened a round's window."""
    plan = json.loads((day.folder / "state/plan.json").read_text())
    return plan["windows"][str(number)]["opened"]


def test_the_conductor_was_killed(played: Played) -> None:
    assert played.day.kills >= played.day.rounds


def test_sheets_were_accepted_and_refused(played: Played) -> None:
    codes = {sent.code for sent in played.sent}
    assert {"accepted", "window"} <= codes <= {"accepted", "window", "wrong_round", "ended"}


def test_no_sheet_was_accepted_out_of_its_window(played: Played) -> None:
    for sent in played.sent:
        if sent.code == "accepted":
            assert played.day.was_open(opened(played.day, sent.number), sent) is not False, sent


def test_no_sheet_was_refused_in_its_window(played: Played) -> None:
    if played.day.rounds >= 3:
        return  # a pause refuses them too
    for sent in played.sent:
        if sent.code == "window":
            assert played.day.was_open(opened(played.day, sent.number), sent) is not True, sent


def rounds_of(played: Played) -> list[Any]:
    reader, rounds = played.day.reader, range(1, played.day.rounds + 1)
    return [reader.ask("GET", f"/public/rounds/{number}.json")[1] for number in rounds]


def test_each_round_was_closed_once_and_published(played: Played, audit: list[str]) -> None:
    digests = [line.split()[2] for line in audit if line.startswith("closed ")]
    pages = rounds_of(played)
    assert [page["digest"] for page in pages] == digests
    assert pages[-1]["ended"]


def test_each_announcement_was_made_once(played: Played) -> None:
    made = played.day.reader.ask("GET", "/public/announcements.json")[1]["announcements"]
    keys = [one["key"] for one in made]
    assert [one["number"] for one in made] == list(range(1, len(keys) + 1))
    assert len(set(keys)) == len(keys)
    closed = [key for key in keys if key.startswith("closed-")]
    assert closed == [f"closed-{number}" for number in range(1, played.day.rounds + 1)]


def test_the_winners_are_those_of_the_journal(played: Played, audit: list[str]) -> None:
    played.day.command("winners")
    won = played.day.reader.ask("GET", "/public/winners.json")[1]
    lines = [
        f"won {bidder['name']} {bidder['demands'][0]} {bidder['pays']}" for bidder in won["bidders"]
    ]
    assert lines == [line for line in audit if line.startswith("won ")]


def test_the_report_says_that_the_auction_has_ended(played: Played) -> None:
    assert "ended:" in played.day.command("status")


def test_the_operator_reads_the_report_through_nginx(played: Played) -> None:
    connection = http.client.HTTPConnection("127.0.0.1", played.day.site.inside, timeout=10)
    with contextlib.closing(connection):
        headers = {"authorization": f"Bearer {OPERATOR}"}
        connection.request("GET", "/conductor.json", headers=headers)
        report = json.load(connection.getresponse())
    assert report["state"] == "ended"
    assert report["round"] == played.day.rounds
