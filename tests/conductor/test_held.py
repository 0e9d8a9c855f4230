"""Rounds that wait for a person: without sheets, without an open window, with a refused closing."""
import pytest

from auction.conductor import commands
from auction.conductor.increments import Rule
from auction.conductor.report import State
from tests.conductor.conftest import Conduct
from tests.conductor.finished import finish
from tests.lib.conducted import ConductedAuction, refusal

# ---- Nobody has a sheet


@pytest.fixture
def without_sheets(conduct: Conduct) -> ConductedAuction:
    """An auction whose round 1 waits, since nobody has a sheet."""
    auction = conduct()
    auction.play(State.HELD, bidders="")
    return auction


def test_the_report_says_why_and_what_to_type(without_sheets: ConductedAuction) -> None:
    words = "nobody has a sheet in force. To close it: next 1 --without-sheets"
    assert words in without_sheets.words


def test_the_round_waits_for_any_time(without_sheets: ConductedAuction) -> None:
    without_sheets.wait(3600, 60)
    assert without_sheets.state is State.HELD
    assert without_sheets.current_round() == 1


def test_a_sheet_that_comes_later_releases_no_hold(without_sheets: ConductedAuction) -> None:
    assert without_sheets.put("X", 1, 2, 100)
    without_sheets.wait(60)
    assert without_sheets.state is State.HELD
    assert without_sheets.current_round() == 1


def test_a_word_for_another_round_is_refused(without_sheets: ConductedAuction) -> None:
    fault = refusal(commands.close_next, without_sheets.context(), 2, True)
    assert "round 2 does not wait for a word" in fault


def test_a_word_must_say_without_sheets(without_sheets: ConductedAuction) -> None:
    fault = refusal(commands.close_next, without_sheets.context(), 1, False)
    assert "nobody has a sheet in force: add --without-sheets" in fault
    without_sheets.wait(60)
    assert without_sheets.state is State.HELD
    assert without_sheets.conductor.context.public.published() == 0


def test_extend_opens_the_window_again(without_sheets: ConductedAuction) -> None:
    commands.extend(without_sheets.context(), 5)
    without_sheets.play(State.OPEN)
    without_sheets.play(State.CLOSED)
    finish(without_sheets)


def test_extend_without_sheets_waits_again(without_sheets: ConductedAuction) -> None:
    commands.extend(without_sheets.context(), 5)
    without_sheets.play(State.OPEN)
    without_sheets.play(State.HELD, bidders="")
    commands.extend(without_sheets.context(), 5)
    without_sheets.play(State.CLOSED)


def test_round_2_waits_too_and_is_closed_by_a_word(conduct: Conduct) -> None:
    auction = conduct(rounds=2)
    auction.play(State.CLOSED)
    auction.play(State.HELD, bidders="")
    assert "next 2 --without-sheets" in auction.words
    fault = refusal(commands.close_next, auction.context(), 3, True)
    assert "round 3 does not wait for a word" in fault
    commands.close_next(auction.context(), 2, True)
    finish(auction)


# ---- The window was not open as announced


def test_a_window_that_nobody_opened_waits(conduct: Conduct) -> None:
    auction = conduct()
    auction.play(State.CLOSED)
    auction.clock.sleep(900)  # nobody runs while the window of round 2 comes and goes
    auction.conductor = auction.fresh()
    auction.play(State.HELD)
    assert "its window was not open as announced" in auction.words
    auction.put("X", 2, 2, 110)  # straight at the server
    auction.look()
    assert "To close it: next 2 --without-sheets." in auction.words
    commands.extend(auction.context(), 5)
    finish(auction)


def test_a_window_that_opened_65_seconds_late_waits(conduct: Conduct) -> None:
    auction = conduct()
    auction.clock.sleep(125)
    auction.play(State.HELD)
    assert "bidders could not reach the auction for a part of its window" in auction.words
    assert auction.conductor.context.journal.in_force() == ["X", "Y"]
    commands.close_next(auction.context(), 1, False)
    finish(auction)


def test_a_window_that_opened_55_seconds_late_does_not_wait(conduct: Conduct) -> None:
    auction = conduct()
    auction.clock.sleep(115)
    finish(auction)


def test_a_window_given_by_extend_that_never_opened_waits(conduct: Conduct) -> None:
    auction = conduct()
    auction.play(State.DRAINING)  # sheets are in force
    commands.extend(auction.context(), 5)
    auction.clock.sleep(20)
    auction.disk.kill_in = auction.folder / "gate"
    assert auction.look() is None, "killed before the gate is open"
    assert not auction.is_open()
    auction.disk.kill_in = None
    auction.clock.sleep(400)
    auction.conductor = auction.fresh()
    auction.play(State.HELD)
    assert "not open as announced" in auction.words
    openings = [one for one in auction.announcements() if one["key"].startswith("open-1-")]
    assert len(openings) == 1, "the second window is not announced as open"
    commands.close_next(auction.context(), 1, False)
    finish(auction)


# ---- The plan is another auction's, or the server refuses


def test_another_auctions_plan_opens_and_closes_nothing(conduct: Conduct) -> None:
    auction = conduct()
    plan = auction.folder / "state/plan.json"
    plan.write_text(plan.read_text().replace('"auction": "', '"auction": "0'))
    assert auction.put("X", 1, 2, 100)
    for seconds in (0, 70, 400):
        auction.clock.sleep(seconds)
        auction.look()
        assert auction.state is State.MISMATCH
        assert "is of another auction" in auction.words
        assert not auction.is_open()
    assert auction.current_round() == 1


def test_a_closing_that_the_server_refuses_waits_and_leaves_no_body(conduct: Conduct) -> None:
    auction = conduct()
    with auction.context().changing() as plan:
        plan.increments = [Rule(51)]
    auction.play(State.HELD)
    assert "the server refuses its closing, {'code': 'increment'" in auction.words
    auction.wait(60)
    assert not (auction.folder / "kept/closing-1.json").exists()
    with auction.context().changing() as plan:
        plan.increments, plan.begun = [Rule(10)], None  # as a new timetable after a refusal does
    commands.close_next(auction.context(), 1, False)
    finish(auction)
