"""A file of the gate that is lost is made again, and what bidders missed meanwhile counts."""
import pytest

from auction.conductor.gate import Gate
from auction.conductor.report import State
from tests.conductor.conftest import Conduct
from tests.conductor.finished import finish
from tests.lib.clock import BEGIN


@pytest.mark.parametrize("front", ["", "late-", "curtain-"])
@pytest.mark.parametrize("place", [0, 3, -1])
def test_a_lost_file_is_made_again(conduct: Conduct, front: str, place: int) -> None:
    auction = conduct(publish=30)
    auction.play(State.OPEN)
    auction.bid()
    gate = auction.folder / "gate"
    files = sorted(gate.glob(f"{front}[0-9]*"))
    files[min(place, len(files) - 1)].unlink()
    assert auction.look() is State.OPEN
    assert sorted(gate.glob(f"{front}[0-9]*")) == files
    finish(auction)


def test_a_file_of_a_later_time_does_not_stay_while_the_gate_is_shut(conduct: Conduct) -> None:
    auction = conduct()
    auction.look()
    (auction.folder / "gate" / str((BEGIN + 30) // 10)).touch()
    (auction.folder / "gate" / f"late-{(BEGIN + 50) // 10}").touch()
    assert auction.look() is State.BEFORE
    assert not list((auction.folder / "gate").iterdir())


def test_a_gate_that_takes_no_sheets_counts_as_missed(conduct: Conduct) -> None:
    """Somebody removes its files each second, which the conductor makes again."""
    auction = conduct()
    auction.play(State.OPEN)
    auction.bid()
    for _ in range(70):
        Gate(auction.folder / "gate").become(set())
        auction.look()
        auction.clock.sleep(1)
    auction.play(State.HELD)
    assert "bidders could not reach the auction" in auction.words
