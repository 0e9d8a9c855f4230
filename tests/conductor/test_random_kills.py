"""Conductors that are killed at random moments of a day close and announce each round once."""
import pathlib
import random
from collections.abc import Callable

import pytest

from tests.conductor.random_kills import kills_of_a_day

KILLS = 100  # for each seed


@pytest.mark.slow
@pytest.mark.parametrize("seed", (1, 2))
def test_days_with_random_kills(
    program: pathlib.Path, record_property: Callable[[str, object], None], seed: int
) -> None:
    chance, kills = random.Random(seed), 0
    while kills < KILLS:
        kills += kills_of_a_day(program, chance)
    record_property("random kills", kills)
