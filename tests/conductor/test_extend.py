"""Extend, announce, and winners: what they do, and when they are refused."""
import pytest

from auction.conductor import commands
from auction.conductor.report import State
from tests.conductor.conftest import Conduct
from tests.conductor.finished import check, finish
from tests.lib.conducted import ConductedAuction, refusal


@pytest.fixture
def opened(conduct: Conduct) -> ConductedAuction:
    auction = conduct()
    auction.play(State.OPEN)
    return auction


def test_extend_moves_the_end_and_the_later_windows(opened: ConductedAuction) -> None:
    commands.extend(opened.context(), 2)
    assert opened.window(1) == (60, 480)
    assert opened.window(2)[0] == 480 + 50
    finish(opened)
    assert opened.announced("Round 1 is open until 12:08") == 1


def test_extend_before_the_window_says_when_it_opens(conduct: Conduct) -> None:
    auction = conduct()
    auction.play(State.BEFORE)
    commands.extend(auction.context(), 2)
    assert auction.window(1) == (60, 480)
    words = "Round 1 is open from 12:01 UTC on November 28 to 12:08 UTC on November 28, longer"
    assert auction.announced(words) == 1


@pytest.mark.parametrize("minutes", (0, -1, 1e9, float("nan")))
def test_wrong_minutes_are_refused(opened: ConductedAuction, minutes: float) -> None:
    assert "minutes must be" in refusal(commands.extend, opened.context(), minutes)
    assert opened.window(1) == (60, 360)


def test_an_announcement_is_made_once(opened: ConductedAuction) -> None:
    commands.announce(opened.context(), "The help desk is at extension 105.")
    finish(opened)
    assert opened.announced("extension 105") == 1


def test_winners_are_not_published_before_the_end(opened: ConductedAuction) -> None:
    assert "has not ended" in refusal(commands.winners, opened.context())


@pytest.fixture
def ended(conduct: Conduct) -> ConductedAuction:
    auction = conduct()
    finish(auction)
    return auction


def test_winners_are_published_once(ended: ConductedAuction) -> None:
    for _ in range(2):
        commands.winners(ended.context())
    check(ended)
    bidders = [{"demands": [1], "name": name, "pays": 121} for name in "XY"]
    assert ended.page("public/winners.json") == {"bidders": bidders, "round": 3}
    assert ended.announced("What each bidder has won") == 1


def test_an_ended_auction_is_not_extended(ended: ConductedAuction) -> None:
    assert "the auction ended" in refusal(commands.extend, ended.context(), 5)


def test_an_ended_auction_is_not_paused(ended: ConductedAuction) -> None:
    assert "the auction ended" in refusal(commands.pause, ended.context(), "Late.")


def test_an_ended_auction_is_not_paused_without_a_server(ended: ConductedAuction) -> None:
    ended.kill_server()
    assert "the auction ended" in refusal(commands.pause, ended.context(), "Late.")


def test_a_clock_that_is_set_after_the_end_pauses_nothing(ended: ConductedAuction) -> None:
    ended.clock.now += 3600.0
    ended.look()
    assert ended.state is State.ENDED
    assert not ended.announced("is paused")


def test_a_word_after_the_end_is_refused(ended: ConductedAuction) -> None:
    assert "does not wait for a word" in refusal(commands.close_next, ended.context(), 3, True)
