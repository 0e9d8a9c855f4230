"""`auction run --rules` prints the rules by which the conductor decides, each of them once."""
import re

import pytest

from auction.conductor.decision import RULES
from tests.lib.paths import auction

pytestmark = pytest.mark.early


def test_the_command_prints_the_rules_of_decide() -> None:
    ran = auction("run", "--rules")
    assert (ran.returncode, ran.stderr) == (0, "")
    lines = re.findall(r"(?m)^(\d+)\. (.+?): (.+)$", ran.stdout)
    assert [int(number) for number, *_ in lines] == list(range(1, len(lines) + 1))
    printed = [(words, one) for _, words, actions in lines for one in actions.split(". Then ")]
    assert printed == [(rule.condition, rule.action) for rule in RULES]
    assert printed[-1] == ("otherwise", "send the closing")
