"""A conductor that is killed before any step of an auction with a curtain comes to the same one.

No round is published before its curtain lifts.
"""
import pathlib

import pytest

from tests.conductor.killed import audit_if_killed, undisturbed

PUBLISH = 30
STEPS = range(1, 275)


@pytest.fixture(scope="module")
def wanted(program: pathlib.Path) -> list[str]:
    return undisturbed(program, PUBLISH)[0]


def test_the_steps_that_are_tried_are_all_steps(program: pathlib.Path) -> None:
    assert undisturbed(program, PUBLISH)[1] == len(STEPS)


@pytest.mark.parametrize("step", STEPS)
def test_killed_before_a_step(program: pathlib.Path, wanted: list[str], step: int) -> None:
    assert audit_if_killed(program, step, False, PUBLISH) == wanted
