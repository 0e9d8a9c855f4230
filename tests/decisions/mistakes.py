"""Mistakes in the rules of `decide`. The explorer must find each."""
import dataclasses
from collections.abc import Callable

from auction.conductor.actions import Action, Close, Fix, Publish, SetGate
from auction.conductor.decision import RULES, Look, Rule, decide
from auction.conductor.observed import Gate, Observed, Reason
from tests.decisions.conductor import Decide
from tests.decisions.world import LIMITS


def decides_by(rules: tuple[Rule, ...] = RULES) -> Decide:
    """Decides by these rules. What was decided once is remembered."""
    known: dict[Observed, Action] = {}

    def decided(seen: Observed) -> Action:
        if seen not in known:
            known[seen] = decide(seen, LIMITS, rules)
        return known[seen]

    return decided


# ---- Rules with a mistake


def words_of(rule: Rule) -> str:
    return f"{rule.condition}: {rule.action}"


def without(words: str) -> Decide:
    """Without the rules that have these words."""
    left = tuple(rule for rule in RULES if words not in words_of(rule))
    assert len(left) < len(RULES), words
    return decides_by(left)


def before(words: str, other: str) -> Decide:
    """With one rule moved before another one."""
    moved = next(rule for rule in RULES if words in rule.action)
    rest = [rule for rule in RULES if rule is not moved]
    place = next(place for place, rule in enumerate(rest) if other in words_of(rule))
    return decides_by((*rest[:place], moved, *rest[place:]))


def changed(words: str, then: Callable[[Look], Action]) -> Decide:
    """With another action in the rules that have these words."""
    found = tuple(
        dataclasses.replace(rule, then=then) if words in words_of(rule) else rule for rule in RULES
    )
    assert found != RULES, words
    return decides_by(found)


# ---- Decisions with a mistake


def with_sheets_that_are_never_frozen() -> Decide:
    """A closing needs no published digest."""
    plain = decides_by()

    def decided(seen: Observed) -> Action:
        digest = seen.server.digest if seen.server else None
        return plain(dataclasses.replace(seen, frozen=digest))

    return decided


def with_an_open_inner_door() -> Decide:
    """Both doors are open until the curtain lifts."""
    plain = decides_by()

    def decided(seen: Observed) -> Action:
        action = plain(seen)
        if not isinstance(action, SetGate) or not action.gate.takes:
            return action
        look = Look(seen, LIMITS)
        window = look.window
        draws, lifts = LIMITS.curtain(window.closes, window.closes)
        wide = Gate(window.opens, window.closes, lifts, draws, lifts)
        if seen.gate != wide:
            return SetGate(wide)
        return plain(dataclasses.replace(seen, gate=action.gate))

    return decided


def with_a_curtain_that_lifts_early() -> Decide:
    """The curtain lifts once the round is closed."""
    plain = decides_by()

    def decided(seen: Observed) -> Action:
        if seen.server and seen.server.closed > seen.published:
            return SetGate(Gate()) if seen.gate != Gate() else Publish(seen.published + 1)
        return plain(seen)

    return decided


def with_a_word_for_everything() -> Decide:
    """A word releases also doubts that come after it."""
    plain = decides_by()

    def decided(seen: Observed) -> Action:
        released = frozenset(Reason) if seen.plan.released else seen.plan.released
        return plain(
            dataclasses.replace(seen, plan=dataclasses.replace(seen.plan, released=released))
        )

    return decided


def without_a_curtain() -> Decide:
    """The window opens without a curtain, and no closing waits for one."""
    plain = decides_by()

    def decided(seen: Observed) -> Action:
        action = plain(seen)
        if isinstance(action, Fix | Close):
            return action if seen.fixed else Fix(seen.server.digest if seen.server else "")
        if isinstance(action, SetGate) and action.gate.lifts and not action.gate.takes:
            bare = action.gate._replace(draws=0, lifts=0)
            if seen.gate != bare:
                return SetGate(bare)
            return plain(dataclasses.replace(seen, gate=action.gate))
        return action

    return decided
