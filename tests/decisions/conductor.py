"""The model of the conductor: it observes, decides, and carries out. It may be killed in each."""
import dataclasses
from collections.abc import Callable

from auction.conductor.actions import (
    Action,
    AnnounceClosing,
    AnnounceOpen,
    Close,
    Fix,
    Freeze,
    Latch,
    NoteClock,
    NoteOpened,
    Publish,
    SetGate,
    Wait,
)
from auction.conductor.hand import by_hand
from auction.conductor.observed import TEN, Gate, Observed, Plan, Reason, Server, State
from tests.decisions.world import LIMITS, Closing, Hand, World, check, with_marks, with_window

Decide = Callable[[Observed], Action]


def observed(world: World, marked: frozenset[tuple[str, int]] | None = None) -> Observed:
    """What a conductor sees that waits for these connections."""
    marked = world.marked if marked is None else marked
    server = Server(
        len(world.closed), world.ended, world.digest, len(world.sheets), len(world.sheets)
    )
    window = (
        world.window
        if world.running
        else (None if world.published == 2 else world.windows[world.published])
    )
    plan = Plan(
        "own" if world.is_own else "old", window, world.paused, world.doubts, world.released
    )
    return Observed(
        "own",
        world.now,
        world.passed,
        0 if world.rebooted else world.step - world.set_at,
        world.rebooted and window is not None,
        0.5 if world.missed else 0.0,
        plan,
        world.gate,
        server if world.running else None,
        world.lost,
        bool(marked & world.pending()),
        world.frozen,
        world.fixed,
        world.published,
        world.announced,
    )


def looks(world: World, decided: Decide, is_second: bool = False) -> World | None:
    """A conductor observes and decides. None if there is nothing to do."""
    if world.hand:
        return looks_by_hand(world, world.hand, decided)
    action = decided(observed(world, world.other if is_second else None))
    if isinstance(action, Wait):
        return None
    if isinstance(action, Close):
        check_reasons(noted(world))
        check_frozen(world)
    return noted(world)._replace(acting=action)


def looks_by_hand(world: World, hand: Hand, decided: Decide) -> World | None:
    """A closing by hand observes and decides. It ends if a person must say more."""
    if not world.running or world.ended:
        return ended_by_hand(world)
    seen = observed(world)
    seen = dataclasses.replace(seen, plan=dataclasses.replace(seen.plan, doubts=hand.doubts))
    action = decided(by_hand(seen, hand.ends, hand.released))
    if isinstance(action, Wait):
        return ended_by_hand(world) if action.state is State.HELD else None
    if isinstance(action, Close):
        check(bool(world.sheets) or Reason.NO_SHEETS in hand.released, "closed without sheets")
        check_frozen(world)
    return world._replace(acting=action)


def ended_by_hand(world: World) -> World:
    """The conductor continues. A connection that it finds may be from before its gate changed."""
    return with_marks(world._replace(hand=None))


def check_frozen(world: World) -> None:
    """A closing is for the journal that was frozen first, or first after a word."""
    check(world.frozen == world.digest, "a round is closed whose sheets are not frozen")
    check(world.true_frozen == world.digest, "a round is closed whose journal has changed")


def noted(world: World) -> World:
    """Notes whether nobody had a sheet once the inner door had shut, for the checks."""
    window = world.window
    is_over = bool(
        window
        and world.running
        and not world.paused
        and world.now >= window.closes + LIMITS.drain
        and not world.gate.late
    )
    is_empty = (
        is_over
        and world.published == len(world.closed)
        and not world.pending()
        and not world.sheets
        and not world.ended
    )
    return world._replace(true_empty=True) if is_empty and not world.true_empty else world


def carried_out(world: World, action: Action) -> World:
    """The world once the conductor has done what it decided."""
    world = world._replace(acting=None)
    match action:
        case SetGate(gate):
            return with_gate(world, gate)
        case NoteOpened(number):
            if number != world.number:
                return world
            return with_window(world, opened=True)._replace(frozen=None, true_frozen=None)
        case NoteClock():
            return world._replace(rebooted=False, set_at=world.step)
        case AnnounceOpen():
            return with_window(world, announced=True)
        case Latch(number, reason):
            return latched(world, reason) if number == world.number else world
        case Freeze(number, digest):
            return frozen(world, digest) if number == world.number else world
        case Fix(digest):
            return world._replace(fixed=digest)
        case Close(earliest, latest, seen_at):
            return (
                sent(world)
                if earliest <= world.now <= latest and world.passed <= seen_at
                else world
            )
        case Publish(number):
            check(not world.now < world.promise, "a round is published before its curtain lifts")
            world = world._replace(published=number)
            window = world.window
            if window and window.opens < world.now + TEN:
                late = world.now + TEN - window.opens
                world = with_window(world, opens=window.opens + late, closes=window.closes + late)
            return world
        case AnnounceClosing(number):
            return world._replace(announced=number)
    raise AssertionError(action)


def with_gate(world: World, gate: Gate) -> World:
    """The gate is set. Whoever waits for connections waits for those of now."""
    window = world.window
    is_open = bool(gate.takes > world.now and window and window.opens <= world.now < window.closes)
    return with_marks(world._replace(gate=gate, true_open=world.true_open or is_open))


def latched(world: World, reason: Reason) -> World:
    """The doubt is stored in the plan, or a closing by hand keeps it.

    What a journal has lost is noted once.
    """
    world = world._replace(lost=world.lost and reason is not Reason.LOST)
    if world.hand:
        return world._replace(hand=world.hand._replace(doubts=world.hand.doubts | {reason}))
    return world._replace(doubts=world.doubts | {reason})


def frozen(world: World, digest: str) -> World:
    """The digest is published. A word about a changed journal was for the one of its time."""
    world = world._replace(frozen=digest, true_frozen=world.true_frozen or digest)
    if world.fixed is not None or world.hand:
        return world
    again = {Reason.CHANGED}
    return world._replace(doubts=world.doubts - again, released=world.released - again)


def sent(world: World) -> World:
    """A closing goes to the server, which refuses it if the round was closed meanwhile."""
    if not world.running or world.fixed is None:
        return world
    check(
        world.is_drawn and world.gate.lifts >= world.now + LIMITS.longest,
        "a round is closed without a curtain",
    )
    closing = Closing(world.number, world.fixed, world.gate.lifts)
    return world._replace(closings=(*world.closings, closing), waits=True)


def check_reasons(world: World) -> None:
    """Nothing that a person must release speaks against a closing that is decided now."""
    check(world.is_own, "a round is closed by another auction's plan")
    check(not world.paused, "a round is closed in a pause")
    bad = {
        reason
        for reason, is_so in (
            (Reason.NOT_OPENED, not world.true_open),
            (Reason.OUTAGE, world.missed),
            (Reason.CLOCK, world.step != world.set_at),
            (Reason.NO_SHEETS, world.true_empty),
            (Reason.LOST, world.true_lost),
            (Reason.TOO_MANY_PAIRS, len(world.sheets) > LIMITS.pairs),
        )
        if is_so
    }
    names = ", ".join(sorted(one.value for one in bad - world.true_word))
    check(not names, f"a round is closed although {names}")


def killed(world: World) -> World:
    """Whoever acts was killed. A conductor that starts waits for all connections that it finds."""
    return with_marks(world._replace(acting=None, waits=False, hand=None))
