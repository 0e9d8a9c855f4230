"""A share of a window in which bidders could not reach the auction makes the round wait.

In these auctions it is more than 20 percent of 300 seconds.
"""
import pytest

from auction.conductor import commands
from auction.conductor.report import State
from tests.conductor.conftest import Conduct
from tests.conductor.finished import finish
from tests.lib.conducted import ConductedAuction


def without_server(conduct: Conduct, seconds: float) -> ConductedAuction:
    """An auction whose server is gone for some time of round 1's window."""
    auction = conduct()
    auction.play(State.OPEN)
    auction.bid()
    auction.kill_server()
    auction.wait(seconds)
    assert auction.state is State.GONE
    assert "no reply to /v1/status" in auction.words
    assert auction.is_open(), "the gate stays as it is"
    auction.begin_server()
    return auction


def test_50_seconds_without_a_server_do_not_wait(conduct: Conduct) -> None:
    auction = without_server(conduct, 50)
    auction.play(State.CLOSED)
    finish(auction)


def test_80_seconds_without_a_server_wait(conduct: Conduct) -> None:
    auction = without_server(conduct, 80)
    auction.play(State.HELD)
    assert "bidders could not reach the auction for a part of its window" in auction.words
    said = [words for _, state, words in auction.states if state is State.OPEN]
    assert any("It will wait for your word" in words for words in said)
    commands.close_next(auction.context(), 1, False)
    finish(auction)


def test_a_server_that_is_gone_after_the_window_makes_the_next_round_late(
    conduct: Conduct,
) -> None:
    auction = conduct()
    auction.play(State.DRAINING)
    auction.kill_server()
    auction.wait(600)
    auction.begin_server()
    auction.play(State.CLOSED)
    assert auction.window(2)[0] >= auction.closed_at()[0] + 30
    assert auction.announced("Round 2 opens later than announced") == 1
    finish(auction)


@pytest.mark.parametrize(
    ("begin", "away", "waits"),
    [
        pytest.param(0, 50, False, id="50 seconds"),
        pytest.param(0, 80, True, id="80 seconds"),
        pytest.param(250, 200, False, id="the last 50 seconds"),
        pytest.param(220, 200, True, id="the last 80 seconds"),
    ],
)
def test_a_window_in_which_no_conductor_looks(
    conduct: Conduct, begin: float, away: float, waits: bool
) -> None:
    auction = conduct()
    auction.play(State.OPEN)
    auction.bid()
    auction.wait(begin, 10)
    auction.clock.sleep(away)
    auction.conductor = auction.fresh()
    assert auction.is_open() == (begin == 0), "the window is open without a conductor"
    auction.play(State.HELD if waits else State.CLOSED)
    if waits:
        commands.close_next(auction.context(), 1, False)
    finish(auction)


@pytest.mark.parametrize(
    ("away", "waits"), [pytest.param(48, True, id="48 s"), pytest.param(8, False, id="8 s")]
)
def test_a_short_window_that_bidders_cannot_reach(conduct: Conduct, away: int, waits: bool) -> None:
    auction = conduct([(60, 110), (180, 230), (300, 350)])
    auction.play(State.OPEN, step=1)
    auction.bid()
    setattr(auction.conductor.context, "is_reached", lambda _now, _window: False)
    auction.wait(away, 1)
    auction.conductor = auction.fresh()
    auction.play(State.HELD if waits else State.CLOSED, step=1)


def test_the_doors_open_before_anyone_asks_whether_bidders_reach_them(conduct: Conduct) -> None:
    """A page that takes some seconds must not make the opening late."""
    auction, seen = conduct(), list[bool]()

    def asked(_now: float, _window: object) -> bool:
        seen.append(auction.is_open())
        return True

    setattr(auction.conductor.context, "is_reached", asked)
    auction.play(State.OPEN)
    auction.look()
    assert seen and all(seen)
