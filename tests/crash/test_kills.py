"""Kills a server under load again and again: no request with a reply is lost."""
import hashlib
import random
import signal
import threading
from dataclasses import dataclass, field
from pathlib import Path

import pytest

from tests.crash.auction import Auction
from tests.crash.requests import Load, is_accepted, pages_of
from tests.lib.http import reply_to
from tests.lib.journals import FRONT, HEAD, texts_of
from tests.lib.runs import Run

KILLS = 200
# The most seconds from a start to a kill.
LONGEST = 0.12
pytestmark = pytest.mark.slow


@dataclass
class Killed:
    """A journal on which servers were killed, and what the last server shows."""

    journal: Path
    load: Load
    kills: int = 0
    closed: dict[int, str] = field(default_factory=dict)
    faults: list[str] = field(default_factory=list)
    first_line: str = ""
    pages: list[bytes] = field(default_factory=list)
    texts: list[bytes] = field(default_factory=list)
    digests: list[str] = field(default_factory=list)

    @property
    def closings(self) -> list[str]:
        """The digests of the logged closings."""
        return [
            digest for text, digest in zip(self.texts, self.digests) if text.startswith(b"POST")
        ]

    def kill(self, auction: Auction, seconds: float) -> None:
        """Starts a server, sends it requests, and kills it after these seconds."""
        with auction.server(self.journal) as server:
            server.ready()
            timer = threading.Timer(seconds, server.child.send_signal, [signal.SIGKILL])
            timer.start()
            self.load.send_to(server.port)
            timer.join()
            lines, fault = server.kill()
        self.kills += 1
        self.faults += [fault] if fault else []
        words = [line.split() for line in lines if line.startswith("closed ")]
        self.closed.update({int(number): digest for _closed, number, digest in words})

    def end(self, auction: Auction) -> None:
        """Starts the last server, and reads its pages and the journal."""
        with auction.server(self.journal) as server:
            self.first_line, self.pages = server.ready().lines[0], pages_of(server.port)
        logged = texts_of(auction.setup.read_bytes(), self.journal.read_bytes())
        self.texts = [text for text, _digest in logged]
        self.digests = [digest for _text, digest in logged]


@pytest.fixture(scope="module")
def killed(auction: Auction) -> Killed:
    """A journal after 200 kills at random moments."""
    draw = random.Random(105)
    killed = Killed(auction.folder / "kills.journal", Load(random.Random(105)))
    for _kill in range(KILLS):
        killed.kill(auction, draw.uniform(0, LONGEST))
    killed.end(auction)
    return killed


def test_servers_were_killed_under_load(killed: Killed) -> None:
    assert killed.kills == KILLS
    assert 2 * len(killed.texts) >= killed.load.answers, "half of the requests were logged"
    assert len(killed.closings) > 1


def test_a_start_says_at_most_that_it_cut_off_a_torn_record(killed: Killed) -> None:
    assert [fault for fault in killed.faults if not fault.startswith("cut ")] == []


def test_each_request_with_a_reply_is_in_the_journal_in_order(killed: Killed) -> None:
    rest = iter(killed.texts)
    assert next((text for text in killed.load.replied if text not in rest), None) is None


def test_each_kill_leaves_at_most_one_request_without_a_reply_in_the_journal(
    killed: Killed,
) -> None:
    assert 0 <= len(killed.texts) - len(killed.load.replied) <= killed.kills


def test_the_journal_has_only_requests_that_were_sent(killed: Killed) -> None:
    assert [text for text in killed.texts if text not in killed.load.sent] == []


def test_a_start_prints_the_count_and_the_last_digest(killed: Killed) -> None:
    assert killed.first_line == f"journal {len(killed.texts)} {killed.digests[-1]}"


def test_a_closing_prints_its_digest(killed: Killed) -> None:
    closings = dict(enumerate(killed.closings, 1))
    assert killed.closed == {number: closings.get(number) for number in killed.closed}


def test_the_pages_are_those_of_the_same_requests_without_a_crash(
    auction: Auction, killed: Killed
) -> None:
    with auction.server() as server:
        refused = [text for text in killed.texts if not is_accepted(reply_to(server.port, text))]
        assert (refused, pages_of(server.port)) == ([], killed.pages)


def test_audit_prints_the_digest_of_each_closing(auction: Auction, killed: Killed) -> None:
    lines = auction.audit(killed.journal).output.splitlines()
    printed = [line.split()[2] for line in lines if line.startswith("closed ")]
    assert printed == killed.closings


def test_journal_lists_each_request(auction: Auction, killed: Killed) -> None:
    lines, place = [f"setup {hashlib.sha256(auction.setup.read_bytes()).hexdigest()}"], HEAD
    for number, (text, digest) in enumerate(zip(killed.texts, killed.digests), 1):
        lines += [f"text {number} {place} {len(text)} {digest}", text.decode()]
        place += FRONT + len(text)
    lines += [f"journal {len(killed.texts)} {killed.digests[-1]}", ""]
    assert auction.list(killed.journal) == Run(0, "\n".join(lines), "")
