"""What the guide says of the desk: a second statement of the rule, which shares no code with it."""
import itertools
from collections.abc import Iterator

from auction.desk.powers import Facts, Situation, Waiting, Wanted

NOW, ROUND, STAMP = 1_000_000.0, 3, "now"
ALONE = {"pause", "extend", "announce", "plan"}
WITH_TWO = {"next", "close", "winners"}
ACTS = (*sorted(ALONE | WITH_TWO), "resume", "confirm", "withdraw", "dance")
FACTS = [Facts(*each) for each in itertools.product((False, True), repeat=4)]
PEOPLE = frozenset(("operator", "second"))


def is_possible(act: str, facts: Facts) -> bool:
    """By the guide's column "possible"."""
    if act == "announce":
        return True
    if act == "winners":
        return facts.has_ended and not facts.has_winners
    if facts.has_ended:
        return False
    if act == "plan":
        return True
    if act == "resume":
        return facts.is_paused
    if act == "next" and not facts.is_held:
        return False
    return not facts.is_paused


def needs_two(wanted: Wanted) -> bool:
    return wanted.act in WITH_TWO or (wanted.act == "resume" and wanted.minutes < 5)


def is_of_now(wanted: Wanted) -> bool:
    """Whether the page showed the auction as it is: of a pause only the round matters."""
    return wanted.round == ROUND and (wanted.act == "pause" or wanted.stamp == STAMP)


def has_typed(wanted: Wanted, typed: str) -> bool:
    return wanted.act not in {"next", "close"} or typed == str(wanted.round)


def expected(wanted: Wanted, seen: Situation) -> str:
    """One of: "refuse", "ask", "withdraw", or "do" with the people whose word it is."""
    waiting = seen.waiting
    if wanted.key in seen.used or wanted.act == "dance":
        return "refuse"
    if wanted.act == "withdraw":
        return "withdraw" if waiting and waiting.wanted.key == wanted.of else "refuse"
    if wanted.act == "confirm":
        if waiting is None or waiting.wanted.key != wanted.of:
            return "refuse"
        first = waiting.wanted
        is_in_time = 0 <= seen.now - waiting.since < 600
        is_good = is_in_time and is_of_now(first) and is_possible(first.act, seen.facts)
        if not is_good or wanted.who == first.who or not has_typed(first, wanted.typed):
            return "refuse"
        return f"do {first.who}, {wanted.who}"
    is_good = is_of_now(wanted) and is_possible(wanted.act, seen.facts)
    if not is_good or not has_typed(wanted, wanted.typed):
        return "refuse"
    if not needs_two(wanted):
        return f"do {wanted.who}"
    is_taken = waiting is not None and 0 <= seen.now - waiting.since < 600
    return "refuse" if len(seen.people) < 2 or is_taken else "ask"


def waitings() -> Iterator[Waiting | None]:
    """Acts of the operator that wait, or none."""
    yield None
    for act, round_, stamp, since in itertools.product(
        ("close", "winners", "resume"),
        (ROUND - 1, ROUND),
        (STAMP, "old"),
        (NOW - 601, NOW - 600, NOW - 599, NOW, NOW + 1),
    ):
        yield Waiting(Wanted(act, "a" * 32, "operator", round_, stamp), since)


def wanteds() -> Iterator[Wanted]:
    for act, key, who, round_, stamp, typed in itertools.product(
        ACTS,
        ("new", "used"),
        ("operator", "second"),
        (ROUND - 1, ROUND),
        (STAMP, "old"),
        ("", str(ROUND), str(ROUND - 1)),
    ):
        for minutes in (0.0, 4.99, 5.0) if act == "resume" else (0.0,):
            for of in ("", "a" * 32, "b" * 32) if act in ("confirm", "withdraw") else ("",):
                yield Wanted(act, key, who, round_, stamp, typed, minutes, of)


def situations() -> Iterator[Situation]:
    for facts, people, waiting in itertools.product(
        FACTS, (PEOPLE, frozenset(("operator",))), waitings()
    ):
        yield Situation(NOW, ROUND, STAMP, facts, people, frozenset(("used",)), waiting)
