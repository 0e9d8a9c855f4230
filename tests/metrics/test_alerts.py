"""Each row of the table of symptoms has an alert, and each alert fires for its own reason only."""
import dataclasses
import json
import re
from typing import Any

import pytest

from auction.desk.metrics import Figures, text_of
from tests.lib.paths import TOP

pytestmark = pytest.mark.early

LINES = (TOP / "services/alerts.yml").read_text().splitlines()
RULES: list[dict[str, Any]] = json.loads(
    "\n".join(line for line in LINES if not line.startswith("#"))
)["groups"][0]["rules"]
NAMES = [rule["alert"] for rule in RULES]
COUNTER = r'increase\((\w+\{\w+="\w+"\})\[\d+m\]\)'
GAUGE = r'(\w+(?:\{\w+="\w+"\})?)'
EXPRESSION = re.compile(rf"(?:{COUNTER}|{GAUGE}) (==|>|<) (\d+(?:\.\d+)?)")
# Rows that only a person notices: no program on the machine does.
BY_PEOPLE = {
    "*The receipt is wrong*, or `not the committed one`",
    "a token is known to someone else",
}
QUIET = Figures({"200": 5}, {}, 0, 100, 0.9, 1.0, 0, "open", 0.9, True)
CODES = {"401": 0, "502": 0}
# What makes each alert fire, and no other one. Counters count from a quiet time on.
FIRES: dict[str, dict[str, Any]] = {
    "ServerGone": {"state": "gone"},
    "OtherServer": {"state": "mismatch"},
    "ConductorSilent": {"looked": 61.0},
    "NoConductor": {"looked": None},
    "WaitsForAPerson": {"state": "held"},
    "Doubts": {"doubts": 1},
    "JournalDiskFills": {"free": 0.05},
    "JournalLong": {"journal": 2_600_000_000},
    "LogDiskFills": {"log_free": 0.05},
    "ConnectionsUsedUp": {"connections": 910_000},
    "UnknownTokens": {"codes": {"200": 5, "401": 101}},
    "BidderTooOften": {"too_often": {"bidder": 101}},
    "NetworkTooOften": {"too_often": {"network": 10_001}},
    "BidderTooMuchAtOnce": {"too_often": {"bidder_at_once": 101}},
    "NetworkTooMuchAtOnce": {"too_often": {"network_at_once": 1_001}},
    "ServerErrors": {"codes": {"200": 5, "502": 11}},
    "NoReceipts": {"signs": False},
}
# A server that is gone or another one is also something that waits for a person.
TOO = {"ServerGone": {"WaitsForAPerson"}, "OtherServer": {"WaitsForAPerson"}}


def values(figures: Figures) -> dict[str, float]:
    """The metrics by name and label, as Prometheus reads them."""
    codes = {**CODES, **figures.codes}
    text = text_of(dataclasses.replace(figures, codes=codes))
    rows = (line.rpartition(" ") for line in text.splitlines() if not line.startswith("#"))
    return {'up{job="clock_auction"}': 1.0, **{name: float(value) for name, _, value in rows}}


def firing(figures: Figures, is_up: bool = True) -> set[str]:
    """The alerts that fire some time after a quiet one."""
    now, before = values(figures), values(QUIET)
    if not is_up:
        now = {'up{job="clock_auction"}': 0.0}
    found = set()
    for rule in RULES:
        match = EXPRESSION.fullmatch(rule["expr"])
        assert match, rule["expr"]
        counter, gauge, sign, number = match.groups()
        name = counter or gauge
        assert name in values(QUIET), f"there is no metric {name}"
        if name not in now:
            continue
        value = now[name] - before[name] if counter else now[name]
        limit = float(number)
        if {"==": value == limit, ">": value > limit, "<": value < limit}[sign]:
            found.add(rule["alert"])
    return found


def test_nothing_fires_in_a_quiet_auction() -> None:
    assert firing(QUIET) == set()


@pytest.mark.parametrize("state", ["before", "open", "draining", "closed", "curtain", "ended"])
def test_nothing_fires_in_the_usual_states(state: str) -> None:
    assert firing(dataclasses.replace(QUIET, state=state)) == set()


@pytest.mark.parametrize("alert, change", FIRES.items(), ids=FIRES)
def test_an_alert_fires_for_its_reason_and_no_other_does(
    alert: str, change: dict[str, Any]
) -> None:
    assert firing(dataclasses.replace(QUIET, **change)) == {alert} | TOO.get(alert, set())


def test_an_alert_fires_if_nothing_answers() -> None:
    assert firing(QUIET, is_up=False) == {"NothingAnswers"}


def test_each_alert_is_tried_above() -> None:
    assert sorted(NAMES) == sorted([*FIRES, "NothingAnswers"])


def rows_of_symptoms() -> set[str]:
    """The first cells of the table of symptoms, without its heads."""
    guide = (TOP / "docs/operators.md").read_text()
    table = guide[guide.index("## When something goes wrong") : guide.index("### Rewrite the jour")]
    cells = [line.split("|")[1].strip() for line in table.splitlines() if line.startswith("| ")]
    return {cell for cell in cells if cell != "symptom" and not cell.startswith("**")}


def test_each_row_of_the_table_of_symptoms_has_an_alert() -> None:
    named = {each for rule in RULES for each in rule["annotations"]["symptoms"].split("; ") if each}
    assert named | BY_PEOPLE == rows_of_symptoms()
    assert not named & BY_PEOPLE


def test_each_alert_says_what_to_do() -> None:
    for rule in RULES:
        assert rule["annotations"]["action"] and re.fullmatch(r"\d+s", rule["for"])
