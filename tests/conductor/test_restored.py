"""A journal that somebody puts back to an earlier state, or exchanges, while nobody looks."""
import pytest

from auction.conductor import commands
from auction.conductor.report import State
from tests.conductor.conftest import Conduct
from tests.conductor.finished import finish
from tests.lib.conducted import ConductedAuction

WORDS = "the journal has lost sheets that it had"


def put_back(auction: ConductedAuction, text: bytes, is_running: bool) -> None:
    """The journal has this text again. The conductor runs on, or is started again."""
    auction.kill_server()
    (auction.folder / "auction.journal").write_bytes(text)
    auction.begin_server()
    if not is_running:
        auction.conductor = auction.fresh()


@pytest.fixture(params=[True, False], ids=["running", "started again"])
def restored(conduct: Conduct, request: pytest.FixtureRequest) -> ConductedAuction:
    """An auction in the window of round 1, whose journal has lost a sheet of Y."""
    auction = conduct()
    auction.play(State.OPEN)
    assert auction.put("X", 1, 2, 100)
    auction.look()
    journal = (auction.folder / "auction.journal").read_bytes()
    assert auction.put("Y", 1, 1, 100)
    auction.look()
    put_back(auction, journal, request.param)
    return auction


def test_a_round_whose_journal_has_lost_a_sheet_waits_for_a_word(
    restored: ConductedAuction,
) -> None:
    assert restored.look() is State.OPEN
    assert WORDS in restored.words
    assert restored.put("Y", 1, 1, 100), "a sheet may still come"
    restored.play(State.HELD, bidders="")
    assert f"Round 1 is not closed: {WORDS}" in restored.words
    commands.close_next(restored.context(), 1, False)
    finish(restored)


def test_it_is_a_doubt_of_that_round_only(restored: ConductedAuction) -> None:
    restored.play(State.HELD)
    commands.close_next(restored.context(), 1, False)
    restored.play()
    assert sum(WORDS in words and "Round 2" in words for _, _, words in restored.states) == 0


def test_a_journal_that_has_lost_nothing_is_no_doubt(conduct: Conduct) -> None:
    auction = conduct()
    auction.play(State.OPEN)
    auction.bid()
    auction.look()
    put_back(auction, (auction.folder / "auction.journal").read_bytes(), False)
    finish(auction)


@pytest.mark.parametrize("is_running", [True, False], ids=["running", "started again"])
def test_with_other_closings_than_were_published_nothing_is_closed_or_published(
    conduct: Conduct, is_running: bool
) -> None:
    """Round 1 was published, and the server has a journal in which it was closed otherwise."""
    auction, other = conduct(), conduct([])
    auction.play(State.CLOSED)
    auction.play(State.BEFORE)
    assert other.put("X", 1, 2, 100) and other.put("Y", 1, 1, 100)
    other.close_by_hand(1, 20)
    put_back(auction, (other.folder / "auction.journal").read_bytes(), is_running)
    auction.wait(500)
    assert auction.state is State.GONE
    assert "has other closings than were published" in auction.words
    assert auction.current_round() == 2
