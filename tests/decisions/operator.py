"""The model of the operator's commands. Each takes the plan's lock, which an acting conductor has.
"""
from collections.abc import Iterator

from auction.conductor.decision import Look
from auction.conductor.observed import TEN, Reason
from tests.decisions.conductor import observed
from tests.decisions.world import GAP, LIMITS, Hand, World, with_marks, with_window


def called_by_hand(world: World) -> Iterator[World]:
    """`auction close`, which gets the plan's lock, also before the end of a window.

    Some calls also close a round without a sheet.
    """
    is_free = not world.acting and not world.waits and not world.hand
    if not (world.budget.hands and is_free and world.is_own and world.running) or world.ended:
        return
    window = world.window
    ends = min(window.closes, world.now) if window else world.now
    budget = world.budget._replace(hands=world.budget.hands - 1)
    for released in {frozenset[Reason](), frozenset({Reason.NO_SHEETS})}:
        hand = Hand(ends, frozenset(), released)
        yield world._replace(hand=hand, budget=budget)


def spent(world: World, **changes: object) -> World:
    budget = world.budget._replace(words=world.budget.words - 1)
    return world._replace(budget=budget, **changes)  # type: ignore[arg-type]


def commanded(world: World) -> Iterator[World]:
    """Each world after a command."""
    if world.paused and not world.acting and not world.waits and not world.hand:
        yield resumed(world)  # costs nothing: a pause ends once
    if (
        not world.budget.words
        or world.acting
        or world.waits
        or world.hand
        or world.ended
        or len(world.closed) != world.published
    ):
        return
    window = world.window
    if window is None or not world.is_own:
        return
    if not world.paused:
        yield from paused(world)
    if world.doubts - world.released:
        yield released(world)
    if world.paused or world.fixed is not None:
        return
    if window.opens <= world.now < window.closes - TEN:
        yield from ended_early(world)
    changes: dict[str, object] = {"closes": window.closes + TEN}
    if window.closes <= world.now:
        changes = {
            "opens": world.now,
            "closes": world.now + TEN,
            "opened": False,
            "announced": False,
        }
    yield new_window(spent(world), changes)


def released(world: World) -> World:
    """A word: the doubts so far hold the round no more, and the clock is right from now on.

    The journal may be frozen as it is now.
    """
    is_changed = Reason.CHANGED in world.doubts
    return spent(
        world,
        true_frozen=None if is_changed else world.true_frozen,
        doubts=world.doubts - {Reason.CLOCK},
        released=(world.released | world.doubts) - {Reason.CLOCK},
        set_at=world.step,
        true_word=world.true_word | world.doubts,
    )


def is_cut(world: World) -> World | None:
    """The world in which a command may be killed between two steps, or None."""
    if not world.budget.cuts:
        return None
    budget = world.budget._replace(words=world.budget.words - 1, cuts=world.budget.cuts - 1)
    return world._replace(budget=budget)


def paused(world: World) -> Iterator[World]:
    """The doors are shut, then the plan is changed, then the doors are shut once more."""
    shut = with_marks(spent(world, gate=Look(observed(world), LIMITS).shut()))
    yield shut._replace(paused=True, since=world.now)
    if cut := is_cut(world):
        yield shut._replace(budget=cut.budget)  # killed before the plan is changed
        # the conductor has opened the doors again meanwhile
        yield cut._replace(paused=True, since=world.now, is_cut=True)


def ended_early(world: World) -> Iterator[World]:
    """The page ends the window: its gate is changed, then the plan."""
    ends = world.now + TEN
    shorter = with_gate(with_window(spent(world), closes=ends))
    yield shorter
    if cut := is_cut(world):
        yield shorter._replace(windows=world.windows, budget=cut.budget)


def with_gate(world: World) -> World:
    """A command that changes an open window changes its gate too."""
    gate = Look(observed(world), LIMITS).open()
    return with_marks(world._replace(gate=gate)) if world.gate.takes else world


def new_window(world: World, changes: dict[str, object]) -> World:
    """A window that a person gave: doubts are gone with the one before. The next one moves."""
    fresh = with_window(world, **changes)
    if changes.get("opened") is False:
        fresh = fresh._replace(missed=False, true_open=False)
    return moved(
        fresh._replace(
            doubts=frozenset(),
            released=frozenset(),
            set_at=world.step,
            true_empty=False,
            true_lost=world.lost,
            true_word=frozenset(),
        )
    )


def moved(world: World) -> World:
    first, second = world.windows
    if world.number == 1 and first and second and second.opens < first.closes + GAP:
        late = first.closes + GAP - second.opens
        second = second._replace(opens=second.opens + late, closes=second.closes + late)
    return world._replace(windows=(first, second))


def resumed(world: World) -> World:
    """A window that the pause cut short opens again, for the time that was left."""
    world = world._replace(paused=False)
    window = world.window
    if window is None or world.fixed is not None or not window.opens <= world.since < window.closes:
        return world
    changes = {"opens": world.now, "closes": world.now + TEN, "opened": False, "announced": False}
    return moved(with_window(world, **changes)._replace(set_at=world.step, true_open=False))
