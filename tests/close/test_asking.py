"""What `auction close` asks, and which answers close a round."""
import signal
from collections.abc import Callable
from typing import IO

import pytest

from tests.close.auction import CloseAuction, lists_each_once, set_up
from tests.lib.waiting import wait_for_read

NONE = "round 1: 0 of 3 bidders have a sheet in force; not: B0, B1, B2\n"
TWO = "round 1: 2 of 3 bidders have a sheet in force; not: B1\n"


@pytest.mark.parametrize("typed", ["", "no\n", "2\n", "y\n", "1\n", "without sheets\n"])
def test_without_a_sheet_only_the_number_and_its_words_close(
    auction: CloseAuction, typed: str
) -> None:
    said = auction.close(typed=typed)
    assert said == (1, NONE + "type 1 without sheets to close it: ", "not closed\n")
    assert auction.nothing_was_closed()
    assert not auction.relay.closings


@pytest.mark.parametrize("typed", ["no\n", "1 without sheets\n"])
def test_with_sheets_only_the_number_closes(auction: CloseAuction, typed: str) -> None:
    """The journal says who has a sheet in force, also after a restart of the server."""
    auction.bid(0, [0, 1])
    auction.bid(2, [0])
    auction.bid(2, [0, 1])
    auction.restart()
    said = auction.close(typed=typed)
    assert said == (1, TWO + "type 1 to close it: ", "not closed\n")
    assert auction.nothing_was_closed()
    assert not auction.relay.closings


def test_the_number_closes_a_round_with_a_sheet(auction: CloseAuction) -> None:
    auction.bid(0, [0, 1])
    auction.bid(2, [0, 1])
    said = auction.close("10", typed="1\n")
    assert said.status == 0, said
    assert said.output == TWO + 'type 1 to close it: {"closed": 1, "ended": false}\n'


def test_the_number_and_its_words_close_a_round_without_a_sheet(small: CloseAuction) -> None:
    said = small.close("10", typed="1 without sheets\n")
    assert said.status == 0, said
    assert said.output.endswith('{"closed": 1, "ended": true}\n'), said


def test_yes_does_not_close_a_round_without_a_sheet(small: CloseAuction) -> None:
    words = "nobody has a sheet in force. To close the round all the same, add --without-sheets."
    said = small.yes(1)
    assert (said.status, said.errors) == (1, f"not closed: {words}\n")
    assert small.nothing_was_closed()


# ---- While it waits for the answer


@pytest.fixture
def large(auction_of: Callable[[object], CloseAuction]) -> CloseAuction:
    """An auction in round 2 with more pairs of bidder and product than a closing can list."""
    auction = auction_of(set_up(129, 128))
    for bidder in range(2):
        auction.bid(bidder, [0, 1])
    assert auction.yes(1).status == 0
    auction.bid(0, [0], 2, price=110)
    return auction


def test_ctrl_c_at_the_question_closes_nothing(large: CloseAuction) -> None:
    process = large.begin_close("10")
    await_question(process.stdout)
    wait_for_read(process.pid)
    process.send_signal(signal.SIGINT)
    _, errors = process.communicate(timeout=60)
    assert process.returncode == 1
    assert errors.startswith("stopped"), errors
    assert large.round() == 2


def test_a_sheet_that_comes_at_the_question_has_its_tie_breaking_numbers(
    large: CloseAuction,
) -> None:
    process = large.begin_close("10")
    await_question(process.stdout)
    large.bid(0, [0, 77], 2, price=110)
    _, errors = process.communicate("2\n", timeout=60)
    assert process.returncode == 0, errors
    assert lists_each_once(large.ties(2), [(0, 0), (0, 1), (0, 77), (1, 0), (1, 1)])


def test_a_round_that_is_closed_at_the_question_is_stored_and_no_other_is_closed(
    large: CloseAuction,
) -> None:
    process = large.begin_close("10")
    await_question(process.stdout)
    large.close_by_hand(2)
    _, errors = process.communicate("2\n", timeout=60)
    assert process.returncode == 1
    assert "round 2 was closed before, and its pages are stored now" in errors
    assert large.stored("closing-2.json") == {"increment": 10, "round": 2, "ties": []}
    assert len(large.relay.closings) == 1  # that of round 1


def await_question(output: IO[str] | None) -> None:
    """Reads the line about sheets, and the question up to its colon."""
    assert output is not None
    output.readline()
    while output.read(1) != ":":
        pass
