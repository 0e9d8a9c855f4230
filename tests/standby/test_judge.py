"""Whether a copy may take over: every combination of what can be seen, and planted mistakes.

`may_take_over` says by the rules what is right. The function that is tried must say the same of
each of some 70,000 combinations, and each mistake that is planted in it must be found.
"""
import itertools
from collections.abc import Callable, Iterator
from typing import Any

import pytest

from auction.standby import judge
from auction.standby.judge import (
    RULES,
    Copy,
    End,
    Fence,
    First,
    Reason,
    Rule,
    Seen,
    reasons_against,
)

pytestmark = pytest.mark.early
NOW, OURS, OTHERS = 1000.0, "ours", "another's"
HERE = End(500, "here")
SOUND = Copy(True, True, True, True, HERE, ("a", "b"), frozenset(), 0, NOW, 0.0)
STOPPED = First(Fence.STOPPED, OURS, HERE, False)

SEEN: list[list[tuple[int, str]]] = [
    [],
    *([(1, "a")], [(1, "x")], [(2, "x")]),
    *([(1, "a"), (2, "b")], [(1, "x"), (2, "b")]),
]

# What each part of a copy and of the first machine can be. The first of each is sound.
COPIES = [
    SOUND._replace(rounds=rounds, published=frozenset(published), sheets_without_record=lacking)
    for rounds, published, lacking in itertools.product(
        [("a", "b"), ("a",), ()],
        SEEN,
        [0, 1, 2],
    )
]
TIMES = [
    (copied, ahead, said)
    for copied in (NOW - 86_400, NOW, NOW + 0.5, NOW + 2)
    for ahead in (0.0, 0.5, 2.0, -2.0)
    for said in (False, True)
]
FIRSTS = [
    First(fence, taker, end, answers)
    for fence in Fence
    for taker in (OURS, OTHERS, "")
    for end in (HERE, End(500, "other"), End(501, "more"), None)
    for answers in (False, True)
]
NAMES = ("is_standby", "is_whole", "is_as_copied", "is_of_one_auction")
MARKS: list[tuple[Any, ...]] = list(itertools.product([True, False], repeat=4))


def states() -> Iterator[Seen]:
    """Everything that can be seen, as far as parts depend on each other."""
    for copy, first, times in itertools.product(COPIES, FIRSTS, TIMES[::5]):
        yield seen_of(copy, first, times)
    for marks, first, times in itertools.product(MARKS, FIRSTS, TIMES):
        yield seen_of(SOUND._replace(**dict(zip(NAMES, marks))), first, times)


def seen_of(copy: Copy, first: First, times: tuple[float, float, bool]) -> Seen:
    copied, ahead, said = times
    return Seen(copy._replace(copied_at=copied, ahead=ahead), first, OURS, NOW, said)


def is_shut_off(first: First) -> bool:
    """Whether the first machine serves nobody, and was not fenced for another take-over."""
    if first.answers:
        return False
    if first.fence is Fence.STOPPED:
        return first.taker == OURS and first.end == HERE
    return first.fence in (Fence.CUT_OFF, Fence.WORD)


def is_sound(copy: Copy) -> bool:
    """Whether the copy is whole, of one auction, and has all that anybody has seen."""
    has_all = all(
        (number, digest) in set(enumerate(copy.rounds, 1)) for number, digest in copy.published
    )
    return all(copy[:4]) and has_all and not copy.sheets_without_record


def may_take_over(seen: Seen) -> bool:
    """By the rules: the copy is sound, the first machine is shut off, and the clock is right."""
    is_now = seen.copy.copied_at - seen.now <= 1
    is_right = abs(seen.copy.ahead) <= 1 or seen.clock_is_right
    return is_sound(seen.copy) and is_shut_off(seen.first) and is_now and is_right


STATES = list(states())
RIGHT = [may_take_over(seen) for seen in STATES]


def differs(rules: tuple[Rule, ...]) -> bool:
    """Whether these rules say something else of a state."""
    return any(right == bool(reasons_against(seen, rules)) for seen, right in zip(STATES, RIGHT))


def test_all_states_are_judged_by_the_rules() -> None:
    assert len(STATES) > 50_000 and 0 < sum(RIGHT) < len(STATES)
    assert not differs(RULES)


def test_each_reason_is_given_for_some_state() -> None:
    given = {reason for seen in STATES for reason in reasons_against(seen)}
    assert given == set(Reason) == {reason for reason, _ in RULES}


@pytest.mark.parametrize("reason", Reason)
def test_a_rule_that_is_left_out_is_missed(reason: Reason) -> None:
    assert differs(tuple(rule for rule in RULES if rule[0] is not reason))


def changed(reason: Reason, holds: Callable[[Seen], bool]) -> tuple[Rule, ...]:
    return tuple((one, holds if one is reason else rule) for one, rule in RULES)


MISTAKES: dict[str, tuple[Rule, ...]] = {
    "a published round may be one more than the journal has": changed(
        Reason.BEHIND,
        lambda seen: any(n > len(seen.copy.rounds) + 1 for n, _ in seen.copy.published),
    ),
    "rounds are counted, and not numbered": changed(
        Reason.BEHIND, lambda seen: len(seen.copy.published) > len(seen.copy.rounds)
    ),
    "only the last published round is compared": changed(
        Reason.CONTRADICTED,
        lambda seen: bool(seen.copy.published)
        and judge.is_contradicted(
            seen._replace(copy=seen.copy._replace(published=frozenset({max(seen.copy.published)})))
        ),
    ),
    "one sheet may be lacking": changed(
        Reason.RECEIPTS, lambda seen: seen.copy.sheets_without_record > 1
    ),
    "only the length of the journal is compared": changed(
        Reason.CUT_SHORT,
        lambda seen: seen.first.fence is Fence.STOPPED
        and (seen.first.end is None or seen.first.end.length != seen.copy.end.length),
    ),
    "a copy may have less than the end": changed(
        Reason.CUT_SHORT,
        lambda seen: seen.first.end is not None and seen.first.end.length < seen.copy.end.length,
    ),
    "a fence for nobody is one for us": changed(
        Reason.ELSEWHERE,
        lambda seen: seen.first.fence is Fence.STOPPED and seen.first.taker == OTHERS,
    ),
    "a word is no fence": changed(
        Reason.NOT_FENCED, lambda seen: seen.first.fence in (Fence.NONE, Fence.WORD)
    ),
    "a word counts more than an answer": changed(
        Reason.ANSWERS, lambda seen: seen.first.answers and seen.first.fence is not Fence.WORD
    ),
    "a copy of tomorrow is none of the future": changed(
        Reason.FUTURE, lambda seen: seen.copy.copied_at > seen.now + 10
    ),
    "an old copy is of the future": changed(
        Reason.FUTURE, lambda seen: abs(seen.copy.copied_at - seen.now) > 1
    ),
    "a clock that is behind does not differ": changed(
        Reason.CLOCKS, lambda seen: seen.copy.ahead > 1 and not seen.clock_is_right
    ),
    "a person's word about the clock is not heard": changed(
        Reason.CLOCKS, lambda seen: abs(seen.copy.ahead) > 1
    ),
}


@pytest.mark.parametrize("rules", MISTAKES.values(), ids=MISTAKES)
def test_a_planted_mistake_is_found(rules: tuple[Rule, ...]) -> None:
    assert differs(rules)
