"""Which round `auction close` closes, and what it does about a round that somebody else closed."""
import shutil

import pytest

from tests.close.auction import WITHOUT_SHEETS, CloseAuction


@pytest.fixture
def second(small: CloseAuction) -> CloseAuction:
    """An auction in round 2, in which both bidders have a sheet in force."""
    small.all_bid()
    assert small.yes(1).status == 0
    small.all_bid(2, 110)
    return small


# ---- The round that is named


@pytest.mark.parametrize("number", [0, 2, 3])
def test_a_round_that_is_not_the_current_one_is_refused(small: CloseAuction, number: int) -> None:
    small.all_bid()
    said = small.yes(number, "10", WITHOUT_SHEETS)
    assert said.status == 1
    assert "the current round is 1" in said.errors
    assert small.round() == 1


def test_the_round_that_is_named_is_closed(small: CloseAuction) -> None:
    small.all_bid()
    assert small.yes(1).status == 0
    assert small.round() == 2


@pytest.mark.parametrize("options", [(), (WITHOUT_SHEETS,)], ids=["with-sheets", "without-sheets"])
def test_a_second_call_closes_no_other_round(
    second: CloseAuction, options: tuple[str, ...]
) -> None:
    said = second.yes(1, "10", *options)
    words = "round 1 was closed before, and the current round is 2, not 1"
    assert (said.status, said.errors) == (1, f"not closed: {words}\n")
    assert second.round() == 2


def test_of_six_calls_at_once_one_closes_the_round(second: CloseAuction) -> None:
    second.relay.closings.clear()
    calls = [second.begin_close("10", "--yes", 2) for _ in range(6)]
    errors = [call.communicate(timeout=60)[1] for call in calls]
    assert [call.returncode for call in calls].count(0) == 1, errors
    assert sum("round 2" in error for error in errors) == 5, errors
    assert len(second.relay.closings) == 1
    assert second.round() == 3


def test_a_later_round_without_a_sheet_is_not_closed(small: CloseAuction) -> None:
    small.all_bid()
    assert small.yes(1).status == 0
    said = small.yes(2)
    assert said.status == 1
    assert "nobody has a sheet in force" in said.errors
    assert small.round() == 2


# ---- The end


def test_it_says_that_the_auction_has_ended(small: CloseAuction) -> None:
    said = small.yes(1, "10", WITHOUT_SHEETS)  # nobody bids, so demand is 0, and the auction ends
    assert said.status == 0
    assert said.output.splitlines()[-1] == '{"closed": 1, "ended": true}'


def test_after_the_end_nothing_is_closed(small: CloseAuction) -> None:
    small.yes(1, "10", WITHOUT_SHEETS)
    said = small.yes(1)
    assert (said.status, said.errors) == (1, "not closed: the auction ended after round 1\n")


# ---- Rounds that somebody else closed


def test_a_round_that_was_closed_by_hand_is_stored_with_its_own_closing(
    second: CloseAuction,
) -> None:
    second.close_by_hand(2, 7, [[1, 0, 5]])
    said = second.yes(2)
    assert said.status == 1
    assert "round 2 was closed before" in said.errors
    assert second.ties(2) == [[1, 0, 5]]
    assert len((second.kept / "closings.jsonl").read_text().splitlines()) == 2


@pytest.fixture
def third(small: CloseAuction) -> CloseAuction:
    """An auction in round 3, whose first two rounds were closed by hand."""
    shutil.copy(small.journal_file, small.folder / "copy.journal")
    for number, price in ((1, 100), (2, 107)):
        small.all_bid(number, price)
        small.close_by_hand(number, 7)
    return small


def test_two_rounds_that_were_closed_by_hand_are_stored(third: CloseAuction) -> None:
    said = third.yes(3)
    assert said.status == 1
    assert "round 2 was closed before" in said.errors
    rounds = sorted(file.name for file in third.kept.glob("round-*"))
    assert rounds == ["round-1.json", "round-2.json"]


def test_a_copy_of_the_journal_is_refused(third: CloseAuction) -> None:
    third.yes(3)
    said = third.yes(3, journal="copy.journal")
    assert said.status == 1
    assert "no copy" in said.errors
    assert third.round() == 3


def test_a_round_that_is_closed_just_before_is_stored_with_its_own_closing(
    third: CloseAuction,
) -> None:
    third.yes(3)
    third.relay.look = lambda: third.close_by_hand(3, 7)  # nobody bids, so the auction ends
    said = third.yes(3, "10", WITHOUT_SHEETS)
    assert said.status == 1
    assert "just before" in said.errors
    assert third.stored("closing-3.json") == {"increment": 7, "round": 3, "ties": []}
    assert third.stored("results-3.json")["ended"] is True
