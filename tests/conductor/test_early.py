"""A person has the current round closed early, with its own increment."""
import pathlib

import pytest

from auction.conductor.commands import CommandFault
from auction.conductor.observed import Limits
from auction.conductor.report import State
from tests.conductor.conftest import Conduct
from tests.conductor.early import end
from tests.conductor.finished import check, finish
from tests.lib.conducted import ConductedAuction, conducted


@pytest.fixture
def with_sheets(conduct: Conduct) -> ConductedAuction:
    """An auction in the window of round 1, in which both bidders have a sheet."""
    auction = conduct()
    auction.play(State.OPEN)
    auction.bid()
    return auction


def test_a_round_is_closed_early_with_the_increment_of_the_person(
    with_sheets: ConductedAuction,
) -> None:
    end(with_sheets)
    with_sheets.play(State.CLOSED)
    assert not with_sheets.is_open()
    assert with_sheets.page("kept/closing-1.json")["increment"] == 20


def test_an_early_end_is_announced_and_published(with_sheets: ConductedAuction) -> None:
    with_sheets.wait(95, 5)
    end(with_sheets)
    with_sheets.play(State.CLOSED)
    assert with_sheets.window(1) == (60, 160)
    window = with_sheets.page("public/timetable.json")["windows"][0]
    assert window["closes"] == "2026-11-28T12:02:40Z"
    words = "Round 1 ends at 12:02:40 UTC on November 28, earlier than announced before."
    assert with_sheets.announced(words) == 1


def test_the_drain_follows_an_early_end(with_sheets: ConductedAuction) -> None:
    with_sheets.wait(95, 5)
    end(with_sheets)
    with_sheets.play(State.CLOSED, step=1)
    assert with_sheets.closed_at() == [160 + 10 + Limits.freeze]


def test_a_closed_round_is_not_closed_again(with_sheets: ConductedAuction) -> None:
    end(with_sheets)
    with_sheets.play(State.CLOSED)
    with pytest.raises(CommandFault, match="round 1 is closed already"):
        end(with_sheets)
    assert with_sheets.look() is State.BEFORE


def test_a_later_round_is_closed_early(with_sheets: ConductedAuction) -> None:
    end(with_sheets)
    with_sheets.play(State.CLOSED)
    with_sheets.play(State.OPEN)
    with_sheets.bid()
    end(with_sheets, 2)
    with_sheets.play(State.CLOSED)
    finish(with_sheets)


def test_a_round_without_sheets_is_not_ended(conduct: Conduct) -> None:
    auction = conduct()
    auction.play(State.OPEN)
    with pytest.raises(CommandFault, match="confirm that you know"):
        end(auction)
    assert auction.look() is State.OPEN
    assert auction.window(1) == (60, 360)


@pytest.fixture
def unplanned(conduct: Conduct) -> ConductedAuction:
    auction = conduct([])
    auction.play(State.UNPLANNED)
    return auction


def both_bid(auction: ConductedAuction, quantity: int = 2) -> None:
    """Both bidders have a sheet, straight at the server."""
    assert auction.put("X", 1, 2, 100)
    assert auction.put("Y", 1, quantity, 100)


def test_a_closing_that_the_server_refuses_makes_the_round_wait(
    unplanned: ConductedAuction,
) -> None:
    both_bid(unplanned)
    end(unplanned, increment=51)
    unplanned.play(State.HELD)
    assert "'increment'" in unplanned.words


def test_a_person_who_says_so_closes_a_round_without_sheets(unplanned: ConductedAuction) -> None:
    both_bid(unplanned)
    end(unplanned)
    unplanned.play(State.CLOSED)
    end(unplanned, 2, without_sheets=True)
    unplanned.play(State.CLOSED)
    unplanned.rounds = 2
    finish(unplanned)


def test_what_nginx_can_write_closes_nothing(with_sheets: ConductedAuction) -> None:
    """Its workers serve the network, and closing a round early needs two persons."""
    folder = with_sheets.folder / "asked"
    assert not folder.exists()
    folder.mkdir()
    (folder / "close.json").write_text('{"round":1,"increment":20,"without_sheets":false}')
    assert with_sheets.look() is State.OPEN
    assert with_sheets.window(1) == (60, 360)


def closes_in_spite_of_a_kill(auction: ConductedAuction, step: int) -> bool:
    """Looks until a round is published, and kills the conductor before one step.

    Returns whether it was killed.
    """
    was_killed = False
    auction.disk.count, auction.disk.kill_at = 0, step
    for _ in range(20):
        if auction.look() is None:
            was_killed, auction.disk.kill_at = True, 0
            auction.conductor = auction.fresh()
        elif auction.conductor.context.public.published() == 1:
            break
        else:
            auction.clock.sleep(5)
    auction.disk.kill_at = 0
    return was_killed


def test_killed_before_each_step_of_a_closing_the_round_is_closed_once(
    program: pathlib.Path,
) -> None:
    step, was_killed = 0, True
    while was_killed:
        step += 1
        with conducted(program, [], rounds=2) as auction:
            both_bid(auction, quantity=1)
            auction.look()
            end(auction)
            was_killed = closes_in_spite_of_a_kill(auction, step)
            assert auction.conductor.context.public.published() == 1, f"killed before step {step}"
            end(auction, 2, without_sheets=True)
            auction.play()
            check(auction)
    assert step > 10
