"""Increments by rule: by round, or by the excess demand that everyone saw in the last round
results.
"""
import dataclasses
from typing import Any

from auction.formats.setup import Product, Setup

from .server import Page

LEAST, MOST = 1, 50
DEFAULT = 10


@dataclasses.dataclass(frozen=True)
class Rule:
    """An increment in percent, up to a round, and while excess demand is at least this percentage
    of supply.

    None is no condition.
    """

    percent: int
    until: int | None = None
    excess: int | None = None


def rules_of(value: Any) -> list[Rule]:
    """The rules of a timetable.

    The first that applies counts, so the last one has no condition. A ValueError says what is
    wrong.
    """
    if not isinstance(value, list) or not value:
        raise ValueError("increments must be a list of rules")
    return [
        rule_of(entry, f"increments[{place}]", place == len(value) - 1)
        for place, entry in enumerate(value)
    ]


def rule_of(entry: Any, where: str, is_last: bool) -> Rule:
    """The rule that is a value of JSON. A ValueError says what is wrong, and where."""
    if (
        not isinstance(entry, dict)
        or "percent" not in entry
        or entry.keys() - {"percent", "until", "excess"}
    ):
        raise ValueError(f'{where} must have "percent", and may have "until" and "excess"')
    if any(type(number) is not int or number < 1 for number in entry.values()):
        raise ValueError(f"{where}: the numbers must be whole and above 0")
    if entry["percent"] > MOST:
        raise ValueError(f"{where}: an increment is {LEAST} to {MOST} percent")
    if is_last == (len(entry) > 1):
        raise ValueError(
            f"{where}: "
            + (
                "the last rule must apply always"
                if is_last
                else "only the last rule may apply always"
            )
        )
    return Rule(entry["percent"], entry.get("until"), entry.get("excess"))


def increments_for(rules: list[Rule], setup: Setup, number: int, results: Page | None) -> list[int]:
    """The increments that lead to the clock prices of a round: one in version 1, and one for each
    product in version 2.

    They go with the closing of the round before, so they are decided by the results of the round
    before that; None is excess demand above every threshold. In version 1 excess demand is counted
    over all products in bidding units.
    """
    demands = [product["demand"] for product in results["products"]] if results else None
    if setup.version == 1:
        return [increment_of(rules, number, excess_of(setup.products, demands))]
    return [
        increment_of(rules, number, excess_of([product], demands and [demands[place]]))
        for place, product in enumerate(setup.products)
    ]


def excess_of(products: list[Product], demands: list[int | None] | None) -> tuple[int, int] | None:
    """Excess demand and supply, in bidding units; None before there are results.

    A demand is given only if it is above supply.
    """
    if demands is None:
        return None
    above = sum(
        product.units * (demand - product.supply)
        for product, demand in zip(products, demands)
        if demand is not None
    )
    return above, sum(product.units * product.supply for product in products)


def increment_of(rules: list[Rule], number: int, excess: tuple[int, int] | None) -> int:
    """The increment of the first rule that applies."""
    for rule in rules:
        is_in_time = rule.until is None or number <= rule.until
        if is_in_time and (
            rule.excess is None or excess is None or 100 * excess[0] >= rule.excess * excess[1]
        ):
            return rule.percent
    return rules[-1].percent


def in_words(rules: list[Rule]) -> str:
    """The rules for an announcement."""
    parts = []
    for rule in rules:
        time = f" up to round {rule.until}" if rule.until else ""
        excess = (
            f" while excess demand is at least {rule.excess} percent of supply"
            if rule.excess
            else ""
        )
        always = " otherwise" if len(rules) > 1 and not time and not excess else ""
        parts.append(f"{rule.percent} percent{time}{excess}{always}")
    return f"Clock prices rise by {', '.join(parts)}."
