"""A conductor that is killed before any of its steps comes to the same auction."""
import pathlib

import pytest

from tests.conductor.killed import (
    STEPS,
    audit_if_killed,
    audit_if_killed_again_and_again,
    undisturbed,
)


@pytest.fixture(scope="module")
def wanted(program: pathlib.Path) -> list[str]:
    return undisturbed(program)[0]


def test_the_steps_that_are_tried_are_all_steps(program: pathlib.Path) -> None:
    assert undisturbed(program)[1] == len(STEPS)


@pytest.mark.parametrize("step", STEPS)
def test_killed_before_a_step(program: pathlib.Path, wanted: list[str], step: int) -> None:
    assert audit_if_killed(program, step, with_the_machine=False) == wanted


def test_killed_again_and_again(program: pathlib.Path, wanted: list[str]) -> None:
    audit, kills = audit_if_killed_again_and_again(program)
    assert audit == wanted
    assert kills > 20
