"""A command that is killed has changed nothing, or all, and is then announced once."""
import pathlib
from collections.abc import Callable
from typing import Any, NamedTuple

import pytest

from auction.conductor import commands
from auction.conductor.plan import Plan
from auction.conductor.report import State
from tests.lib.clock import BEGIN
from tests.lib.conducted import ConductedAuction, conducted

TIMETABLE = '{"days":[{"date":"2026-11-28","windows":["12:10-12:11"]}]}'


class Case(NamedTuple):
    """A command with its words, a part of its announcement, and whether a plan is changed by it."""

    command: Callable[..., None]
    words: tuple[Any, ...]
    announced: str
    is_changed: Callable[[Plan], bool] | None


CASES = [
    Case(
        commands.pause,
        ("A fire alarm.",),
        "The auction is paused.",
        lambda plan: plan.paused is not None,
    ),
    Case(
        commands.extend,
        (1,),
        "longer than announced before",
        lambda plan: plan.windows[1].closes == BEGIN + 150,
    ),
    Case(
        commands.plan,
        (pathlib.Path("timetable.json"),),
        "The timetable has 1 window",
        lambda plan: plan.windows[2].opens == BEGIN + 600,
    ),
    Case(commands.announce, ("Extension 105.",), "Extension 105.", None),
]


def check_moment(auction: ConductedAuction, case: Case) -> None:
    """What must be so after the first look after a command."""
    plan, announced = auction.context().plan_file.read(), auction.announced(case.announced)
    wanted = case.is_changed(plan) if case.is_changed else min(announced, 1)
    assert announced == wanted
    assert not (plan.paused and auction.is_open())
    table = auction.page("public/timetable.json")
    assert table["announcements"] == len(auction.announcements())
    assert bool(table["paused"]) == bool(plan.paused)


@pytest.mark.parametrize("case", CASES, ids=lambda case: case.command.__name__)
def test_killed_before_each_step(program: pathlib.Path, case: Case) -> None:
    step, was_killed = 0, True
    while was_killed:
        step += 1
        with conducted(program, [(60, 90), (120, 150)]) as auction:
            auction.play(State.OPEN)
            (auction.folder / "timetable.json").write_text(TIMETABLE)
            words = [
                auction.folder / word if isinstance(word, pathlib.Path) else word
                for word in case.words
            ]
            was_killed = auction.obey(case.command, *words, kill_at=step)
            auction.look()
            check_moment(auction, case)
            if not was_killed:
                assert auction.announced(case.announced) == 1
    assert step > 10
