"""`auction commit`, killed before each of its steps: the next call publishes what it had begun."""
import json
import pathlib

import pytest

from auction.conductor import commitment
from auction.conductor.commitment import Places
from auction.formats.setup import Setup
from auction.formats.ties import Commitment, Draw
from tests.close.auction import set_up
from tests.lib.disk import killed_at

pytestmark = pytest.mark.early
DRAW = "1 2 3"
STEPS, DRAW_STEPS = 20, 11  # system calls of a commitment, and of a draw


@pytest.fixture
def setup(tmp_path: pathlib.Path) -> Setup:
    (tmp_path / "setup.json").write_text(json.dumps(set_up(2, 1)))
    return Setup.read(tmp_path / "setup.json")


@pytest.fixture
def places(tmp_path: pathlib.Path) -> Places:
    """Folders in which nothing is committed yet."""
    return Places(tmp_path / "kept", tmp_path / "public")


def published(places: Places) -> Commitment | None:
    """What everyone sees."""
    return Commitment.read(places.commitment) if places.commitment.exists() else None


def published_draw(places: Places) -> str | None:
    """What everyone sees of the draw, which is of the published commitment."""
    if not places.draw.exists():
        return None
    draw = Draw.of(json.loads(places.draw.read_bytes()))
    assert draw == Draw.added(places.commitment.read_bytes(), draw.words)
    return draw.words


@pytest.mark.parametrize("step", range(1, STEPS + 1))
def test_after_a_kill_it_publishes_what_it_had_begun(
    setup: Setup, places: Places, step: int
) -> None:
    with killed_at(step) as disk:
        commitment.make(places, setup)
    assert disk.has_killed
    seen = published(places)
    made = commitment.make(places, setup)
    assert seen in (None, made)
    assert published(places) == made


@pytest.mark.parametrize("step", range(1, DRAW_STEPS + 1))
def test_after_a_kill_in_a_draw_it_publishes_the_draw_or_nothing(
    setup: Setup, places: Places, step: int
) -> None:
    before = commitment.make(places, setup)
    with killed_at(step) as disk:
        commitment.make(places, setup, draw=DRAW)
    assert disk.has_killed
    seen = published_draw(places)
    assert commitment.make(places, setup) == before
    assert published_draw(places) in ((None, DRAW) if seen is None else (DRAW,))
    assert published(places) == before


@pytest.mark.parametrize("step", range(1, DRAW_STEPS + 1))
def test_after_a_kill_in_a_draw_the_draw_can_be_given_again(
    setup: Setup, places: Places, step: int
) -> None:
    before = commitment.make(places, setup)
    with killed_at(step):
        commitment.make(places, setup, draw=DRAW)
    commitment.make(places, setup)
    assert commitment.make(places, setup, draw=DRAW) == before
    assert published_draw(places) == DRAW
    assert published(places) == before


def test_it_has_no_step_after_the_last(setup: Setup, places: Places) -> None:
    with killed_at(STEPS + 1) as disk:
        commitment.make(places, setup)
    assert disk.count == STEPS


def test_a_draw_has_no_step_after_the_last(setup: Setup, places: Places) -> None:
    commitment.make(places, setup)
    with killed_at(DRAW_STEPS + 1) as disk:
        commitment.make(places, setup, draw=DRAW)
    assert disk.count == DRAW_STEPS
