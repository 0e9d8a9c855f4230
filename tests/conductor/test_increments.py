"""The increments of a round by its number and by excess demand."""
from typing import Any

import pytest

from auction.conductor import commands
from auction.conductor.increments import Rule, increments_for, rules_of
from auction.conductor.report import State
from auction.conductor.timetable import Window
from auction.formats.setup import Product, Setup
from tests.conductor.conftest import Conduct
from tests.conductor.early import end
from tests.conductor.finished import finish
from tests.conductor.plans import take
from tests.lib.clock import BEGIN
from tests.lib.conducted import ConductedAuction, small_setup

RULES = rules_of([{"until": 3, "percent": 20}, {"excess": 50, "percent": 10}, {"percent": 5}])
# Of all products together 32 bidding units are supplied.
PRODUCTS = [Product("A", 1, 2), Product("B", 3, 10)]
# Of round 3 and later: 50 percent of excess demand after round 1, so 25 percent and then 5.
RISING = [{"until": 2, "percent": 20}, {"until": 3, "excess": 50, "percent": 25}, {"percent": 5}]
ANNOUNCED = (
    "Clock prices rise by 20 percent up to round 2, 25 percent up to round 3 while excess demand "
    "is at least 50 percent of supply, 5 percent otherwise."
)


def plan_of(auction: ConductedAuction) -> list[Window]:
    """The windows of the plan, in order."""
    windows = auction.context().plan_file.read().windows
    return [windows[number] for number in sorted(windows)]


def results_of(*demands: int | None) -> dict[str, Any]:
    return {"products": [{"demand": demand} for demand in demands]}


@pytest.mark.parametrize(
    ("version", "number", "results", "wanted"),
    [
        pytest.param(1, 2, None, [20], id="before results"),
        pytest.param(1, 3, results_of(3, 11), [20], id="the last round of a rule"),
        pytest.param(2, 3, results_of(3, 11), [20, 20], id="that in version 2"),
        pytest.param(1, 4, None, [10], id="no results are above every threshold"),
        pytest.param(2, 4, None, [10, 10], id="that in version 2, without results"),
        pytest.param(1, 4, results_of(None, 16), [10], id="18 of 32 units"),
        pytest.param(1, 4, results_of(None, 15), [5], id="15 of 32 units"),
        pytest.param(1, 4, results_of(3, 15), [10], id="16 of 32 units"),
        pytest.param(2, 4, results_of(3, 14), [10, 5], id="only product 0"),
        pytest.param(2, 4, results_of(None, 15), [5, 10], id="only product 1"),
        pytest.param(2, 4, results_of(None, None), [5, 5], id="no excess demand"),
    ],
)
def test_the_first_rule_that_applies_counts(
    version: int, number: int, results: dict[str, Any] | None, wanted: list[int]
) -> None:
    setup = Setup(b"", version, PRODUCTS, [], {})
    assert increments_for(RULES, setup, number, results) == wanted


@pytest.mark.parametrize("version", (1, 2))
def test_an_auction_has_the_increments_of_its_timetable(conduct: Conduct, version: int) -> None:
    auction = conduct([], document=small_setup(version), rounds=4)
    windows = ((60, 120), (170, 230), (280, 340), (390, 450))
    assert take(auction, *windows, increments=RISING) == ""
    finish(auction)
    bodies = [auction.page(f"kept/closing-{number}.json") for number in (1, 2, 3, 4)]
    found = [body["increment"] if version == 1 else body["increments"][0] for body in bodies]
    assert found == [20, 25, 5, 5]
    assert auction.announced(ANNOUNCED) == 1


# ---- When bids are known


@pytest.mark.parametrize("state", [State.OPEN, State.DRAINING])
def test_a_timetable_changes_no_increment_of_a_round_that_has_begun(
    conduct: Conduct, state: State
) -> None:
    auction = conduct([], rounds=2)
    assert take(auction, (60, 120), (170, 230), increments=[{"percent": 20}]) == ""
    auction.play(state)
    assert take(auction, (270, 330), increments=[{"percent": 7}]) == ""
    finish(auction)
    bodies = [auction.page(f"kept/closing-{number}.json") for number in (1, 2)]
    assert [body["increment"] for body in bodies] == [20, 7]


def test_a_timetable_changes_no_increment_of_a_round_that_opens_again(conduct: Conduct) -> None:
    auction = conduct([], rounds=2)
    assert take(auction, (60, 120), (170, 230), increments=[{"percent": 20}]) == ""
    auction.play(State.OPEN)
    commands.pause(auction.context(), "A fire alarm.")
    commands.resume(auction.context(), 5)
    windows = [(window.opens - BEGIN, window.closes - BEGIN) for window in plan_of(auction)]
    assert take(auction, *windows, increments=[{"percent": 7}]) == ""
    finish(auction)
    assert auction.page("kept/closing-1.json")["increment"] == 20


def test_after_a_refused_closing_a_timetable_gives_the_round_other_increments(
    conduct: Conduct,
) -> None:
    auction = conduct([], rounds=2)
    assert take(auction, (60, 120), (170, 230)) == ""
    with auction.context().changing() as plan:
        plan.increments = [Rule(51)]
    auction.play(State.HELD)
    assert take(auction, (570, 630), increments=[{"percent": 7}]) == ""
    commands.close_next(auction.context(), 1, False)
    finish(auction)
    assert auction.page("kept/closing-1.json")["increment"] == 7


@pytest.mark.parametrize(("increment", "announced"), [(10, 0), (12, 1)])
def test_other_increments_of_a_person_are_announced(
    conduct: Conduct, increment: int, announced: int
) -> None:
    auction = conduct()
    auction.play(State.OPEN)
    auction.bid()
    end(auction, increment=increment)
    auction.play(State.CLOSED, step=1)
    assert auction.page("kept/closing-1.json")["increment"] == increment
    words = "closes round 1 with other increments than announced: 12 percent."
    assert auction.announced(words) == announced
