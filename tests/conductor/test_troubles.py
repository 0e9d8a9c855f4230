"""A full disk, lost replies, rounds that others close, and a journal that is lost or damaged."""
from collections.abc import Callable
from typing import Any

import pytest

from auction.conductor import closing, commands
from auction.conductor.closing import Origin, Ties
from auction.conductor.report import State
from auction.conductor.server import NoReply
from tests.conductor.conftest import Conduct
from tests.conductor.finished import finish
from tests.lib.conducted import ConductedAuction, refusal

# ---- A full disk


@pytest.mark.parametrize(
    "begin", (State.BEFORE, State.OPEN, State.DRAINING), ids=lambda state: state.value
)
def test_on_a_full_disk_nothing_is_closed_or_announced(conduct: Conduct, begin: State) -> None:
    auction = conduct()
    auction.play(begin)
    auction.bid()
    auction.disk.is_full = True
    before = len(auction.announcements())
    auction.wait(20 if begin is State.BEFORE else 500)
    assert begin is State.BEFORE or "No space left" in auction.words
    assert auction.current_round() == 1
    assert not auction.is_open()
    assert len(auction.announcements()) == before
    auction.disk.is_full = False
    finish(auction)


def test_no_window_is_announced_that_a_full_disk_kept_shut(conduct: Conduct) -> None:
    auction = conduct()
    auction.play(State.BEFORE)
    auction.disk.is_full = True
    auction.wait(200)
    assert not auction.announcements()
    assert not auction.is_open()
    auction.disk.is_full = False
    auction.play(State.HELD)
    commands.close_next(auction.context(), 1, False)
    finish(auction)


# ---- Requests and replies of closings that are lost


def lost() -> NoReply:
    return NoReply("no reply to /v1/close: lost")


def let_close(auction: ConductedAuction, close: Callable[[Callable[[], Any], bytes], Any]) -> None:
    """Lets this function send the conductor's closings. It gets the usual way, and a body."""
    usual = auction.conductor.context.operator.ask

    def ask(path: str, body: bytes | None = None, seconds: float = 300) -> Any:
        if body is None:
            return usual(path, body, seconds)
        return close(lambda: usual(path, body, seconds), body)

    auction.let_ask(auction.conductor, ask)


@pytest.mark.parametrize(
    ("is_request_lost", "count"),
    [pytest.param(True, 9, id="request"), pytest.param(False, 3, id="reply")],
)
def test_a_lost_closing_is_sent_again_as_it_was(
    conduct: Conduct, is_request_lost: bool, count: int
) -> None:
    auction = conduct()
    sent: list[bytes] = []

    def close(usual: Callable[[], Any], body: bytes) -> Any:
        sent.append(body)
        if len(sent) % 3 and is_request_lost:
            raise lost()
        page = usual()
        if len(sent) % 3:
            raise lost()
        return page

    let_close(auction, close)
    finish(auction)
    assert len(set(sent)) == 3
    assert len(sent) == count


@pytest.mark.parametrize(
    ("is_server_gone", "words"),
    [
        pytest.param(True, "may have been sent", id="without a server"),
        pytest.param(
            False, "round 1 is closed, and its results are not published yet", id="closed"
        ),
    ],
)
def test_a_window_does_not_open_again_once_its_closing_may_have_been_sent(
    conduct: Conduct, is_server_gone: bool, words: str
) -> None:
    auction = conduct()
    auction.play(State.DRAINING)

    def close(usual: Callable[[], Any], _body: bytes) -> Any:
        usual()
        if is_server_gone:
            auction.kill_server()
        raise lost()

    let_close(auction, close)
    auction.play(State.GONE)
    assert words in refusal(commands.extend, auction.context(), 5)
    if is_server_gone:
        auction.begin_server()
    auction.conductor = auction.fresh()
    finish(auction)


# ---- Rounds that others close


def test_a_round_closed_by_hand_in_its_window_is_published(conduct: Conduct) -> None:
    auction = conduct()
    auction.play(State.OPEN)
    auction.bid()
    context = auction.context()
    context.journal.read_on()
    digest = context.journal.digest.hex()
    closing.fix(context.auction, 1, [10], Ties.OF_CHAIN, digest)
    closing.send(context.auction, 1, Origin.NOW)  # as `auction close` does
    auction.look()
    assert auction.conductor.context.public.published() == 1
    assert not auction.is_open()
    assert auction.state is State.BEFORE
    assert "Round 2" in auction.words
    finish(auction)


def test_a_round_closed_by_the_page_while_it_drains_is_published(conduct: Conduct) -> None:
    auction = conduct()
    auction.play(State.CLOSED)
    auction.play(State.DRAINING)
    auction.close_by_hand(2, 7)
    auction.look()
    assert auction.page("kept/closing-2.json")["increment"] == 7
    finish(auction)


def test_a_word_for_a_round_that_somebody_closes_closes_no_other(conduct: Conduct) -> None:
    auction = conduct()
    auction.clock.sleep(400)
    auction.bid()
    auction.play(State.HELD)
    commands.close_next(auction.context(), 1, True)
    auction.close_by_hand(1, 10)
    auction.play(State.HELD, bidders="")
    assert auction.state is State.HELD
    assert "Round 2 is not closed: nobody" in auction.words


# ---- The journal


def test_with_a_server_that_lost_its_journal_the_gate_is_shut(conduct: Conduct) -> None:
    auction = conduct()
    auction.play(State.CLOSED)
    auction.play(State.OPEN)
    auction.kill_server()
    (auction.folder / "auction.journal").rename(auction.folder / "lost.journal")
    auction.begin_server()
    auction.look()
    assert auction.state is State.MISMATCH
    assert not auction.is_open()
    auction.kill_server()
    (auction.folder / "lost.journal").rename(auction.folder / "auction.journal")
    auction.begin_server()
    finish(auction)


def test_with_a_damaged_journal_nothing_is_done(conduct: Conduct) -> None:
    auction = conduct()
    auction.play(State.OPEN)
    auction.bid()
    journal = auction.folder / "auction.journal"
    journal.write_bytes(journal.read_bytes()[:-1] + b"?")
    auction.wait(20)
    assert auction.state is State.GONE
    assert "is damaged at byte" in auction.words
