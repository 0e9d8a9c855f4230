"""A machine that loses power before any step comes back to the same auction.

All that was not synced is lost.
"""
import pathlib

import pytest

from tests.conductor.killed import STEPS, audit_if_killed, undisturbed


@pytest.fixture(scope="module")
def wanted(program: pathlib.Path) -> list[str]:
    return undisturbed(program)[0]


@pytest.mark.parametrize("step", STEPS)
def test_power_lost_before_a_step(program: pathlib.Path, wanted: list[str], step: int) -> None:
    assert audit_if_killed(program, step, with_the_machine=True) == wanted
