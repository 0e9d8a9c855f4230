"""The conductor says once that the journal has little space left."""
import pathlib

import pytest

from auction.conductor import room
from auction.conductor.report import State
from auction.conductor.room import FULL, LONG, warning
from tests.conductor.conftest import Conduct


@pytest.mark.parametrize(
    "length, free, words",
    [
        (0, 1.0, ""),
        (2_500_000_000, 0.1, ""),
        (2_500_000_001, 0.1, LONG),
        (0, 0.099, FULL),
        (2_500_000_001, 0.0, f"{FULL}; {LONG}"),
    ],
)
def test_a_long_journal_and_a_full_disk_are_named(length: int, free: float, words: str) -> None:
    assert warning(length, free) == words


def test_what_is_not_known_warns_of_nothing(tmp_path: pathlib.Path) -> None:
    gone = tmp_path / "gone"
    assert warning(room.length_of(gone), room.free_part(gone)) == ""


def test_the_conductor_says_it_once(conduct: Conduct, monkeypatch: pytest.MonkeyPatch) -> None:
    """Again only after it was over. Rounds are opened as usual."""
    auction = conduct()
    auction.play(State.BEFORE)
    monkeypatch.setattr(room, "MOST_BYTES", 10)
    auction.wait(5)
    assert sum(LONG in line for line in auction.lines) == 1
    monkeypatch.setattr(room, "MOST_BYTES", 10**9)
    auction.wait(5)
    monkeypatch.setattr(room, "MOST_BYTES", 10)
    auction.play(State.OPEN)
    assert sum(LONG in line for line in auction.lines) == 2
