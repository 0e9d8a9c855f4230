"""Enumerates all that can happen to the small auction from a beginning on, and checks each state.

Any event may come between what the conductor observed and what it does. In each state:
- no sheet passes that becomes whole after the inner door should have shut;
- no sheet that passed both doors in its window is refused;
- a closing is made for a journal that does not change any more, sent while the curtain is drawn,
  and with no doubt that a person has not released;
- no page shows a closing before its curtain lifts;
- a closing is for the journal whose digest was published first, or first after a word;
- if nothing else happens, the auction comes to its end or to a person; after a kill it comes to
  the same one, or to one doubt more.
"""
from collections import deque
from collections.abc import Callable
from typing import NamedTuple

from auction.conductor.observed import Gate
from tests.decisions.conductor import Decide, killed
from tests.decisions.events import nexts, outcome, quiet
from tests.decisions.mistakes import decides_by
from tests.decisions.world import Broken, Budget, World

# The plan and the gate of an auction that is over. One sheet is in force, sent through gate/open.
STALE = World(is_own=False, gate=Gate(1, 5, 8, 5, 9), sheets=frozenset("X"))
LATE = World(passed=50, missed=True, sheets=frozenset("X"))
PAIR = World(names="XY")
NOTHING = Budget(0, 0, 0, 0, 0)
# What happens at most so often in each exploration. Kills at any step happen in all of them.
BEGINNINGS = {
    "another auction's folder": STALE._replace(budget=Budget(1, 1, 1, 1, 1)),
    "a conductor that starts after the window": LATE._replace(budget=Budget(0, 0, 1, 0, 0)),
    "a command": World(budget=Budget(0, 0, 1, 0, 0)),
    "a page, the conductor late once": World(budget=Budget(0, 0, 0, 1, 1)),
    "two bidders": PAIR._replace(budget=Budget(0, 0, 0, 0, 0)),
    "an outage, late once": World(budget=Budget(0, 1, 0, 0, 1)),
    "a step of the clock, late once": World(budget=Budget(1, 0, 0, 0, 1)),
    "a step of the clock, a page": World(budget=Budget(1, 0, 0, 1, 0)),
    "a closing by hand": World(budget=NOTHING._replace(hands=1)),
    "a reboot, late once": World(budget=NOTHING._replace(reboots=1, slow=1)),
    "a second conductor, a page": World(budget=NOTHING._replace(seconds=1, spies=1)),
    "a killed command": World(budget=NOTHING._replace(words=1, cuts=1)),
    "a sheet past the doors": World(budget=NOTHING._replace(strangers=1)),
    "a journal that is put back": World(budget=NOTHING._replace(restores=1)),
}
# Two troubles at once, which take some minutes.
MORE = {
    "two bidders, late once": PAIR._replace(budget=Budget(0, 0, 0, 0, 1)),
    "an outage, a page, late once": World(budget=Budget(0, 1, 0, 1, 1)),
    "a step of the clock, a page, late once": World(budget=Budget(1, 0, 0, 1, 1)),
    "a step of the clock and an outage": World(budget=Budget(1, 1, 0, 0, 0)),
    "a command, late once": World(budget=Budget(0, 0, 1, 0, 1)),
    "two commands": World(budget=Budget(0, 0, 2, 0, 0)),
    "a command and a step of the clock": World(budget=Budget(1, 0, 1, 0, 0)),
    "a command and an outage": World(budget=Budget(0, 1, 1, 0, 0)),
    "a closing by hand and a reboot": World(budget=NOTHING._replace(hands=1, reboots=1)),
    "a closing by hand and a command": World(budget=NOTHING._replace(hands=1, words=1)),
    "a second conductor and a command": World(budget=NOTHING._replace(seconds=1, words=1)),
    "a reboot and a step of the clock": World(budget=NOTHING._replace(reboots=1, clock=1)),
    "a closing by hand, late once": World(budget=NOTHING._replace(hands=1, slow=1)),
    "a sheet past the doors, a word": World(budget=NOTHING._replace(strangers=1, words=1)),
    "a journal that is put back, a word": World(budget=NOTHING._replace(restores=1, words=1)),
    "two closings by hand": World(budget=NOTHING._replace(hands=2)),
}

Outcomes = dict[World, tuple[object, ...]]
Record = Callable[[str, object], None]


class Explored(NamedTuple):
    """How many states and steps there are. If an invariant is broken, which one, and the way."""

    states: int
    steps: int
    broken: str = ""
    way: str = ""


def check_all(begin: World, record_property: Record) -> None:
    """Explores by the rules as they are. Nothing may break."""
    found = explore(begin, decides_by())
    record_property("states", found.states)
    record_property("steps", found.steps)
    assert not found.broken, f"{found.broken}\n{found.way}"


def explore(begin: World, decided: Decide) -> Explored:
    """All states from this one on, up to the first in which an invariant is broken."""
    before: dict[World, World | None] = {begin: None}
    outcomes: Outcomes = {}
    queue, steps = deque([begin]), 0
    while queue:
        world = queue.popleft()
        try:
            check_end(world, decided, outcomes)
            for fresh in nexts(world, decided):
                steps += 1
                if fresh not in before:
                    before[fresh] = world
                    queue.append(fresh)
        except Broken as broken:
            return Explored(len(before), steps, str(broken), way_to(world, before))
    return Explored(len(before), steps)


def check_end(world: World, decided: Decide, outcomes: Outcomes) -> None:
    """If nothing else happens, the auction ends. After a kill too, or it has a doubt more."""
    alone = end_of(world, decided, outcomes)
    if world.hand or world.is_strange or not (world.acting or world.waits):
        return  # a closing by hand that is killed is no closing
    after = end_of(killed(world), decided, outcomes)
    has_more_doubts = not after[-1] <= alone[-1]  # type: ignore[operator]
    if alone != after and not has_more_doubts:
        raise Broken(f"after a kill it comes to another end: {after} instead of {alone}")


def end_of(world: World, decided: Decide, outcomes: Outcomes) -> tuple[object, ...]:
    """What the auction comes to if nothing goes wrong from here on."""
    way: dict[World, None] = {}
    while world not in outcomes:
        if world in way:
            raise Broken("the conductor does the same for ever")
        way[world] = None
        fresh = quiet(world, decided)
        if fresh is None:
            outcomes[world] = outcome(world, decided)
            break
        world = fresh
    for one in way:
        outcomes[one] = outcomes[world]
    return outcomes[world]


def way_to(last: World, before: dict[World, World | None]) -> str:
    """How a state came about, a line a step."""
    lines: list[str] = []
    world: World | None = last
    while world is not None:
        lines.append(line_of(world))
        world = before[world]
    return "\n".join(reversed(lines))


def line_of(world: World) -> str:
    requests = [tuple(each) for each in world.requests]
    doubts = [doubt.name for doubt in world.doubts]
    return (
        f"{world.passed:3d}s now={world.now} closed={len(world.closed)} "
        f"sheets={''.join(sorted(world.sheets))} requests={requests} gate={tuple(world.gate)} "
        f"fixed={world.fixed} doubts={doubts} acting={world.acting}"
    )
