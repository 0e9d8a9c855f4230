"""A clock that was set by more than a second in all, since a window was announced, is a doubt."""
import pytest

from auction.conductor import commands
from auction.conductor.report import State
from tests.conductor.conftest import Conduct
from tests.conductor.finished import finish
from tests.lib.conducted import ConductedAuction, Times

SHORT: Times = [(60, 360), (420, 480), (540, 600)]


@pytest.fixture
def opened(conduct: Conduct) -> ConductedAuction:
    auction = conduct(SHORT)
    auction.play(State.OPEN)
    auction.bid()
    return auction


def check_held(auction: ConductedAuction) -> None:
    """The gate is shut, and the round waits for a person."""
    auction.look()
    assert auction.state is State.HELD
    assert "the clock was set since its window was announced" in auction.words
    assert not list((auction.folder / "gate").iterdir())


@pytest.mark.parametrize("is_running", (True, False), ids=("running", "started later"))
@pytest.mark.parametrize("jump", (3600.0, -3600.0, 8.0, -8.0, 1.5, -1.5))
def test_a_clock_that_is_set_holds_the_round(
    opened: ConductedAuction, jump: float, is_running: bool
) -> None:
    opened.wait(60)
    opened.clock.now += jump
    if not is_running:
        opened.conductor = opened.fresh()
    opened.look()
    check_held(opened)
    opened.wait(600)
    check_held(opened)
    assert not opened.closed_at()
    opened.clock.now -= jump  # a person sets it right
    opened.look()
    check_held(opened)
    commands.extend(opened.context(), 10)
    opens, closes = opened.window(1)
    assert closes - opens == 600
    finish(opened)


def test_everyone_reads_why_the_window_is_shut(opened: ConductedAuction) -> None:
    opened.clock.now += 8
    opened.look()
    opened.wait(60)
    words = "The clock of the auction's machine was set by +8 seconds. Round 1 takes no sheets"
    assert opened.announced(words) == 1


@pytest.mark.parametrize("step", (0.4, -0.4))
def test_small_steps_add_up(opened: ConductedAuction, step: float) -> None:
    opened.wait(60)
    for _ in range(2):
        opened.clock.now += step
        opened.look()
        assert opened.state is State.OPEN
    opened.clock.now += step
    opened.look()
    check_held(opened)


def test_a_clock_that_is_set_by_less_than_a_second_holds_nothing(opened: ConductedAuction) -> None:
    opened.clock.now += 0.9
    finish(opened)


def test_a_word_continues_by_the_clock_as_it_is(opened: ConductedAuction) -> None:
    opened.clock.now += 8
    check_held(opened)
    assert "To continue: next 1." in opened.words
    commands.close_next(opened.context(), 1, False)
    opened.look()
    assert opened.state is State.OPEN
    opened.clock.now += 2
    opened.look()
    check_held(opened)
    commands.close_next(opened.context(), 1, False)
    finish(opened)


@pytest.mark.parametrize(
    ("off", "waits"),
    [pytest.param(20, False, id="later"), pytest.param(-20, True, id="before the last look")],
)
def test_a_machine_that_was_off(opened: ConductedAuction, off: float, waits: bool) -> None:
    opened.kill_server()
    opened.clock.restart(off)
    opened.begin_server()
    opened.conductor = opened.fresh()
    opened.look()
    assert (opened.state is State.HELD) == waits
    if waits:
        commands.extend(opened.context(), 1)
    finish(opened)


def test_a_clock_that_is_set_after_the_machine_was_off_is_noticed(opened: ConductedAuction) -> None:
    opened.kill_server()
    opened.clock.restart(20)
    opened.begin_server()
    opened.conductor = opened.fresh()
    opened.look()
    opened.clock.now += 2
    opened.look()
    check_held(opened)


def test_nginx_takes_no_sheet_at_times_that_are_over(conduct: Conduct) -> None:
    auction = conduct(SHORT)
    auction.play(State.OPEN)
    auction.wait(100)
    auction.clock.now -= 50
    assert not auction.is_open()
