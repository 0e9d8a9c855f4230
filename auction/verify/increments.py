"""Checks of increments: each closing has those of the rule that was announced before its window."""
from auction.formats.notices import Entry
from auction.recount.formats import Setup
from auction.recount.rules import Line

from .announced import (
    LATE,
    by_hand,
    entries_of,
    first,
    frozen_of,
    last_before,
    of_kind,
    seconds_between,
)
from .case import Absent, Case, Failed


def check_increments(case: Case) -> str:
    """Compares each closing's increments with the rule that was announced before its window."""
    entries, rounds = entries_of(case), case.counted.auction.rounds
    if not of_kind(entries, "increments"):
        raise Absent("no notice has a rule of increments, so nothing shows what was announced")
    faults, acts = list[str](), list[str]()
    for number, closed in enumerate(rounds, 1):
        rules = rules_for(entries, number)
        if not rules:
            faults.append(f"round {number}: no rule of increments was announced before its window")
            continue
        lines = rounds[number - 2].lines if number > 1 else None
        found = [increments_of(case, one, number, lines) for one in rules]
        if closed.increments in found:
            continue
        then = f"and by the rule of notice {rules[-1].number} they are {found[-1]}"
        if how := person_words(case, entries, number, closed.increments, lines):
            acts.append(f"BY HAND: {how}, {then}")
        else:
            faults.append(
                f"round {number} was closed with the increments {closed.increments}, {then}"
            )
    if faults:
        raise Failed(*faults)
    words = f"the increments of {len(rounds)} closings are those of the rules that were announced"
    return "; ".join([words, *acts])


def rules_for(entries: list[Entry], number: int) -> list[Entry]:
    """The rules of increments that may have applied when a window opened, or when its
    sheets were frozen if nobody said that it opened.

    A notice may come some seconds after the change that it is of, as after a crash. So there are
    several if a rule was announced just after the opening.
    """
    begun = first(entries, "opened", number) or frozen_of(entries, number)
    if begun is None:
        return []
    opens = begun.says.get("opens", begun.time)
    told = of_kind(entries[: begun.number - 1], "increments")
    in_time = [one for one in told if one.time <= opens]
    soon = [one for one in told if 0 < seconds_between(opens, one.time) <= LATE]
    return in_time[-1:] + soon


def person_words(
    case: Case, entries: list[Entry], number: int, made: list[int], lines: list[Line] | None
) -> str:
    """Who closed a round with other increments, or let it close by a later rule; "" for nobody."""
    if act := by_hand(entries, number):
        return f"{act.says['who']} closed round {number} with the increments {made}"
    word = last_word(entries, number)
    rule = last_before(entries, "increments", word) if word else None
    if word is None or rule is None or made != increments_of(case, rule, number, lines):
        return ""
    words = f"with the increments {made}, by the rule of notice {rule.number}"
    return f"{word.says['who']} let round {number} close {words}"


def last_word(entries: list[Entry], number: int) -> Entry | None:
    """The last notice that a person let a frozen round close, before it was closed.

    If the server refuses a closing, a person announces other increments, and then gives this word.
    """
    frozen, closed = first(entries, "frozen", number), first(entries, "closed", number)
    if frozen is None or closed is None:
        return None
    acts = of_kind(entries[frozen.number : closed.number - 1], "act", number)
    return next((one for one in reversed(acts) if one.says["what"] == "next"), None)


def increments_of(case: Case, rule: Entry, number: int, lines: list[Line] | None) -> list[int]:
    """The increments that go with the closing of a round, by a notice of their rules."""
    return increments_by(rule.says["rules"], case.setup, number + 1, lines)


def increments_by(
    rules: list[dict[str, int]], setup: Setup, number: int, lines: list[Line] | None
) -> list[int]:
    """The increments for the prices of a round, of each product (docs/operators.md)."""
    groups = [range(len(setup.products))] if setup.version == 1 else []
    groups = groups or [range(place, place + 1) for place in range(len(setup.products))]
    made = list[int]()
    for group in groups:
        units = [setup.products[place].units for place in group]
        supplies = [setup.products[place].supply for place in group]
        demands = [lines[place].demand for place in group] if lines else None
        percent = percent_by(rules, number, units, supplies, demands)
        made += [percent] * len(group)
    return made


def percent_by(
    rules: list[dict[str, int]],
    number: int,
    units: list[int],
    supplies: list[int],
    demands: list[int] | None,
) -> int:
    """The percentage of the first rule that applies to these products together."""
    supply = sum(unit * one for unit, one in zip(units, supplies))
    for rule in rules:
        if number > rule.get("until", number):
            continue
        if demands is None or "excess" not in rule:
            return rule["percent"]
        excess = sum(u * max(d - s, 0) for u, d, s in zip(units, demands, supplies))
        if 100 * excess >= rule["excess"] * supply:
            return rule["percent"]
    return rules[-1]["percent"]


CHECKS = [("increments", check_increments)]
