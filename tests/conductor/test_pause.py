"""Pause shuts the gate at once, and resume gives the time that was left."""
from typing import Any

import pytest

from auction.conductor import commands
from auction.conductor.report import State
from tests.conductor.conftest import Conduct
from tests.conductor.finished import finish
from tests.lib.conducted import WINDOWS, ConductedAuction, conducted, refusal

KILLED_PAUSE = (60, 90)


@pytest.fixture
def paused(conduct: Conduct) -> ConductedAuction:
    """An auction that is paused in the window of round 1."""
    auction = conduct()
    auction.play(State.OPEN)
    commands.pause(auction.context(), "A fire alarm.")
    return auction


def test_the_gate_is_shut_at_once(paused: ConductedAuction) -> None:
    assert not paused.is_open()


def test_everyone_sees_a_pause_before_the_next_look(paused: ConductedAuction) -> None:
    assert paused.page("public/timetable.json")["paused"] == "A fire alarm."


def test_a_paused_auction_is_not_paused_again(paused: ConductedAuction) -> None:
    assert "paused already" in refusal(commands.pause, paused.context(), "Again.")


def test_a_paused_auction_is_not_extended(paused: ConductedAuction) -> None:
    assert "resume it first" in refusal(commands.extend, paused.context(), 5)


def test_a_pause_lasts_until_resume(paused: ConductedAuction) -> None:
    paused.wait(1200)
    assert paused.state is State.PAUSED
    assert not paused.closed_at()


def test_resume_gives_the_time_that_was_left_and_moves_later_windows(
    paused: ConductedAuction,
) -> None:
    paused.wait(1200)
    commands.resume(paused.context(), 15)
    windows = [paused.window(number) for number in (1, 2, 3)]
    assert windows[0] == (1260 + 900, 1260 + 1200), "300 seconds were left"
    assert [after[0] - before[1] for before, after in zip(windows, windows[1:])] == [50, 50]
    finish(paused)
    assert paused.announced("The auction is paused. A fire alarm.") == 1
    continues = "Round 1 is open from 12:36 UTC on November 28 to 12:41 UTC on November 28."
    assert paused.announced(f"The auction continues. {continues}") == 1


@pytest.mark.parametrize("state", (State.BEFORE, State.DRAINING), ids=lambda state: state.value)
def test_a_pause_out_of_the_window_moves_nothing(conduct: Conduct, state: State) -> None:
    auction = conduct()
    auction.play(state)
    commands.pause(auction.context(), "A look at the log.")
    auction.wait(40)
    commands.resume(auction.context(), 0)
    assert auction.window(1) == WINDOWS[0]
    finish(auction)


def test_a_killed_pause_without_a_server_has_not_paused_or_has_shut_the_gate(program: Any) -> None:
    step, was_killed = 0, True
    while was_killed:
        step += 1
        with conducted(program, [KILLED_PAUSE]) as auction:
            auction.play(State.OPEN)
            auction.kill_server()
            was_killed = auction.obey(commands.pause, "A fire alarm.", kill_at=step)
            auction.look()
            is_paused = auction.context().plan_file.read().paused is not None
            assert not (is_paused and auction.is_open()), f"killed before step {step}"
    assert step > 10


def test_the_gate_is_shut_even_if_the_conductor_opens_it_once_more(conduct: Conduct) -> None:
    auction = conduct()
    auction.play(State.OPEN)
    context = auction.context()
    shut = context.gate.shut
    looks: list[State | None] = []

    def shut_and_look(now: float) -> None:
        shut(now)
        if not looks:
            looks.append(auction.look())

    setattr(context.gate, "shut", shut_and_look)
    commands.pause(context, "A fire alarm.")
    assert looks == [State.OPEN]
    assert not auction.is_open()
