"""A small auction on three machines: what can happen to it, as far as a take-over matters.

Machine A begins, and B and C are standbys. Each state is plain data, and `steps` yields what can
come next. Only `reasons_against` decides whether a machine may take over. A machine that is off
comes back, unless another one has taken over: people then let it be gone.
"""
from collections.abc import Callable, Iterator
from typing import NamedTuple

from auction.standby.judge import Copy, End, Fence, First, Reason, Seen

SERVES, STANDBY, FENCED, OFF, GONE = "serves", "standby", "fenced", "off", "gone"
ROUNDS = 1
Judge = Callable[[Seen], tuple[Reason, ...]]


class Machine(NamedTuple):
    """A machine, with the rounds that its journal closes, and with those that it shows."""

    state: str
    taker: str = ""  # for whom it was fenced
    rounds: tuple[str, ...] = ()
    published: frozenset[tuple[int, str]] = frozenset()
    is_whole: bool = False


class World(NamedTuple):
    """The machines by name, and what people have seen."""

    machines: tuple[Machine, Machine, Machine]
    seen: frozenset[tuple[int, str]] = frozenset()
    is_cut_short: bool = False  # a machine that could be asked had more than the one that took over

    def having(self, number: int, **parts: object) -> "World":
        changed = list(self.machines)
        changed[number] = changed[number]._replace(**parts)  # type: ignore[arg-type]
        return self._replace(machines=tuple(changed))  # type: ignore[arg-type]


BEGIN = World((Machine(SERVES, is_whole=True), Machine(STANDBY), Machine(STANDBY)))
NAMES = "ABC"


def steps(world: World, judge: Judge) -> Iterator[World]:
    """What can come next."""
    for number, machine in enumerate(world.machines):
        if machine.state == SERVES:
            yield from served(world, number, machine)
        elif machine.state == OFF and not others_serve(world, number):
            yield world.having(number, state=SERVES)
        else:
            yield from taken(world, number, judge)


def others_serve(world: World, number: int) -> bool:
    machines = enumerate(world.machines)
    return any(one.state == SERVES for place, one in machines if place != number)


def served(world: World, number: int, machine: Machine) -> Iterator[World]:
    """What a machine does that serves, and what happens to it."""
    if len(machine.rounds) < ROUNDS:
        yield world.having(number, rounds=(*machine.rounds, NAMES[number]))
    if len(machine.published) < len(machine.rounds):
        one = len(machine.published) + 1, machine.rounds[len(machine.published)]
        shown = world.having(number, published=machine.published | {one})
        yield shown._replace(seen=shown.seen | {one})
    yield world.having(number, state=OFF)
    for other, copy in enumerate(world.machines):
        if copy.state == STANDBY:
            yield copied(world, number, other)
            if other == 1:  # one that somebody made by other means: files without the journal
                yield world.having(other, published=machine.published)


def copied(world: World, number: int, other: int) -> World:
    """A whole pass from one machine to another."""
    copy = {"state": STANDBY, "taker": "", "is_whole": True}
    return world.having(other, **{**world.machines[number]._asdict(), **copy})


def end_of(machine: Machine) -> End:
    return End(len(machine.rounds), "".join(machine.rounds))


def copy_of(world: World, number: int) -> Copy:
    """What is seen of a machine's copy, with what people have saved."""
    one = world.machines[number]
    return Copy(
        *(one.state == STANDBY, one.is_whole, True, True, end_of(one), one.rounds),
        *(one.published | world.seen, 0, 0.0, 0.0),
    )


def taken(world: World, number: int, judge: Judge) -> Iterator[World]:
    """A machine takes over, if it may, with each kind of fence of each other machine."""
    for other, first in enumerate(world.machines):
        if other == number:
            continue
        # People say of a machine that is off, or wrongly of one that serves, that it is off.
        for fence in (Fence.NONE, Fence.WORD) if first.state in (OFF, SERVES) else ():
            known = First(fence, "", None, any(one.state == SERVES for one in world.machines))
            if may(world, number, known, judge):
                yield serving(world, number)
        if first.state in (SERVES, FENCED):
            yield from taken_by_fence(world, number, other, judge)


def taken_by_fence(world: World, number: int, other: int, judge: Judge) -> Iterator[World]:
    """A machine fences another one, which may be fenced already. Its last pass may be cut off."""
    first = world.machines[other]
    fenced = world
    if first.state == SERVES:
        fenced = world.having(other, state=FENCED, taker=NAMES[number])
        yield fenced
    taker = fenced.machines[other].taker
    known = First(Fence.STOPPED, taker, end_of(first), False)
    is_standby = fenced.machines[number].state == STANDBY
    for after in (fenced, copied(fenced, other, number)) if is_standby else (fenced,):
        if may(after, number, known, judge):
            is_cut_short = after.machines[number].rounds != first.rounds
            yield serving(after, number)._replace(is_cut_short=is_cut_short)


def serving(world: World, number: int) -> World:
    """A machine has taken over."""
    for other, machine in enumerate(world.machines):
        if machine.state == OFF:
            world = world.having(other, state=GONE)
    return world.having(number, state=SERVES)


def may(world: World, number: int, first: First, judge: Judge) -> bool:
    seen = Seen(copy_of(world, number), first, NAMES[number], 0.0, False)
    return not judge(seen)


def fault_of(world: World) -> str:
    """What must never be, or nothing."""
    if world.is_cut_short:
        return "a round is lost that the first machine has"
    serving = [one for one in world.machines if one.state == SERVES]
    if len(serving) > 1:
        return "two machines serve"
    for one in serving:
        if not world.seen <= set(enumerate(one.rounds, 1)):
            return "what was published is not so any more"
        if not one.is_whole:
            return "a machine serves without the secrets"
    return ""


def explore(judge: Judge) -> tuple[int, str]:
    """Goes through all states. Returns how many there are, and the first fault, or nothing."""
    known, ahead = {BEGIN}, [BEGIN]
    while ahead:
        world = ahead.pop()
        if fault := fault_of(world):
            return len(known), fault
        for after in steps(world, judge):
            if after not in known:
                known.add(after)
                ahead.append(after)
    return len(known), ""
