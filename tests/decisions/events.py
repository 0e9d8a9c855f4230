"""All that can happen in the model: server, bidders, time, kills, outages, and clock steps."""
from collections.abc import Iterator

from auction.conductor.actions import Wait
from auction.conductor.observed import TEN, State
from tests.decisions.conductor import (
    Decide,
    carried_out,
    ended_by_hand,
    killed,
    looks,
    observed,
)
from tests.decisions.operator import called_by_hand, commanded
from tests.decisions.world import (
    END,
    HEAD,
    LIMITS,
    QUEUED,
    Request,
    World,
    check,
    takes,
    takes_whole,
)

# ---- The server


def served(world: World) -> Iterator[World]:
    """The server takes one of its queue. It may be any: a connection in backoff is overtaken."""
    for place, one in enumerate(world.requests):
        if one.where == QUEUED:
            rest = world._replace(requests=world.requests[:place] + world.requests[place + 1 :])
            if one.number == world.number and not world.ended:
                rest = rest._replace(sheets=rest.sheets | {one.bidder})
            else:
                check(
                    one.number != one.passed,
                    "a sheet that passed both doors in its window is refused as wrong_round",
                )
            yield rest
    if world.spy:
        check(
            not (world.closed and world.now < world.promise),
            "a page shows a closing before its curtain lifts",
        )
        yield world._replace(spy=0)
    if world.closings:
        yield closed(world)


def closed(world: World) -> World:
    """The server takes a closing, unless the round was closed before."""
    closing, *others = world.closings
    rest = world._replace(closings=tuple(others), waits=False)
    if world.waits and world.hand:
        rest = ended_by_hand(rest)
    if closing.number != world.number or world.ended:
        return rest
    check(
        closing.digest == world.digest or world.is_strange,
        "a pair that matters has no number: the journal changed after the closing was made",
    )
    return rest._replace(
        closed=(*world.closed, world.sheets),
        sheets=frozenset(),
        frozen=None,
        true_frozen=None,
        is_strange=False,
        fixed=None,
        doubts=frozenset(),
        released=frozenset(),
        missed=False,
        set_at=world.step,
        promise=closing.lifts if world.now < closing.lifts else 0,
        true_open=False,
        true_empty=False,
        true_lost=False,
        true_word=frozenset(),
    )


# ---- Bidders


def asks(world: World) -> Iterator[World]:
    """Heads and last bytes of sheets, and a page."""
    if not world.nginx:
        return
    for place, one in enumerate(world.requests):
        if one.where == HEAD:
            rest = world.requests[:place] + world.requests[place + 1 :]
            if takes_whole(world):
                check(
                    is_in_time(world),
                    "a sheet passes that became whole after the inner door should have shut",
                )
                yield world._replace(
                    requests=(*rest, one._replace(where=QUEUED, passed=world.number))
                )
            else:
                yield world._replace(requests=rest)
    if takes(world) and not world.ended:
        begun = {one.bidder for one in world.requests}
        for bidder, ahead in (("X", 0), ("X", 1), ("Y", 0)):
            number = world.number + ahead
            if (
                bidder in world.names
                and bidder not in begun
                and number <= 2
                and (ahead or bidder not in world.sheets)
            ):
                yield world._replace(requests=(*world.requests, Request(bidder, number, HEAD)))
    if world.budget.spies and not world.spy and not world.is_drawn:
        budget = world.budget._replace(spies=world.budget.spies - 1)
        yield world._replace(spy=1 + len(world.closed), budget=budget)


def is_in_time(world: World) -> bool:
    """Whether a sheet may become whole now: in a window or its drain, by this auction's plan."""
    window = world.window
    return bool(
        world.is_own
        and (not world.paused or world.is_cut)
        and window
        and window.opens <= world.now < window.closes + LIMITS.drain
    )


# ---- Time and troubles


def ticked(world: World) -> World:
    """Ten seconds pass."""
    is_open = takes(world) and takes_whole(world)
    missed = world.missed or is_due(world) and not (world.nginx and world.running and is_open)
    true_open = world.true_open or is_due(world) and is_open
    return settled(
        world._replace(passed=world.passed + TEN, missed=missed, true_open=true_open, is_cut=False)
    )


def is_due(world: World) -> bool:
    """Whether bidders expect the current window to be open now."""
    window = world.window
    is_current = world.published == len(world.closed) and not world.paused
    return bool(is_current and window and window.opens <= world.now < window.closes)


def settled(world: World) -> World:
    """What has been seen cannot be hidden again."""
    if world.promise and world.now >= world.promise:
        world = world._replace(promise=0)
    if any(closing.lifts <= world.now for closing in world.closings):
        closings = tuple(closing._replace(lifts=0) for closing in world.closings)
        world = world._replace(closings=closings)
    return world


def troubles(world: World) -> Iterator[World]:
    """Kills, steps of the clock, and outages."""
    is_at_work = world.acting or world.waits
    if is_at_work and len(world.closings) < 2:  # else there would be always one more
        yield killed(world)
    if world.budget.reboots:
        yield rebooted(world)
    if world.budget.seconds and world.other is None:
        budget = world.budget._replace(seconds=0)
        yield world._replace(other=world.pending(), budget=budget)
    if world.budget.strangers and world.running and not world.ended:
        budget = world.budget._replace(strangers=world.budget.strangers - 1)
        sheets = world.sheets ^ {"Z"}
        yield world._replace(sheets=sheets, budget=budget, is_strange=True, true_empty=False)
    if world.budget.restores and world.running and world.sheets and not world.ended:
        yield put_back(world)
    if world.budget.clock:
        budget = world.budget._replace(clock=0)
        for step in (-TEN, TEN):
            yield settled(world._replace(step=step, budget=budget))
    if not world.nginx:
        yield world._replace(nginx=True)
    if not world.running:
        yield world._replace(running=True)
    if world.budget.outages and world.nginx and world.running:
        budget = world.budget._replace(outages=0)
        missed = world.missed or is_due(world)
        heads = tuple(one for one in world.requests if one.where == QUEUED)
        queued = tuple(one for one in world.requests if one.where == HEAD)
        yield world._replace(nginx=False, requests=heads, missed=missed, budget=budget)
        yield world._replace(
            running=False,
            requests=queued,
            spy=0,
            closings=(),
            waits=False,
            missed=missed,
            budget=budget,
        )


def put_back(world: World) -> World:
    """The journal is that of the beginning of this round again."""
    budget = world.budget._replace(restores=world.budget.restores - 1)
    return world._replace(
        sheets=frozenset(), budget=budget, is_strange=True, lost=True, true_lost=True
    )


def rebooted(world: World) -> World:
    """The machine starts again within ten seconds. Nobody knows whether its clock was set then."""
    world = killed(
        world._replace(
            nginx=False,
            running=False,
            requests=(),
            spy=0,
            closings=(),
            rebooted=True,
            set_at=world.step,
            other=None,
            missed=world.missed or is_due(world),
            passed=world.passed + TEN,
            budget=world.budget._replace(reboots=world.budget.reboots - 1),
        )
    )
    return settled(world)


# ---- What comes next


def nexts(world: World, decided: Decide) -> Iterator[World]:
    """Each world that can be next."""
    if world.acting:
        due: World | None = carried_out(world, world.acting)
    else:
        due = None if world.waits else looks(world, decided)
    if due is not None:
        yield due
    if world.other is not None and not world.acting and not world.waits and not world.hand:
        second = looks(world, decided, is_second=True)
        if second is not None:
            yield second
            due = second
    if world.passed < END and (due is None and not world.waits or world.budget.slow):
        slow = world.budget.slow - (due is not None or world.waits)
        yield ticked(world)._replace(budget=world.budget._replace(slow=slow))
    if world.running:
        yield from served(world)
    yield from asks(world)
    yield from commanded(world)
    yield from called_by_hand(world)
    yield from troubles(world)


def quiet(world: World, decided: Decide) -> World | None:
    """The next world if nothing goes wrong from now on and nobody asks, or None at the end."""
    if not world.nginx or not world.running:
        return world._replace(nginx=True, running=True)
    for fresh in served(world):
        return fresh
    if world.acting:
        return carried_out(world, world.acting)
    if (due := looks(world, decided)) is not None:
        return due
    return ticked(world) if world.passed < 3 * END else None


def outcome(world: World, decided: Decide) -> tuple[object, ...]:
    """What an auction came to: closed rounds, what is published, and what it waits for."""
    action = decided(observed(world))
    check(isinstance(action, Wait), "the auction comes to no end")
    assert isinstance(action, Wait)
    check(
        action.state in (State.ENDED, State.HELD, State.PAUSED, State.STRANGER),
        f"the auction stays in {action.state}",
    )
    return world.closed, world.published, world.announced, action.state, action.doubts
