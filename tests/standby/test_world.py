"""Three machines, everything that can happen to them, and rules that are left out."""
import pytest

from auction.standby.judge import RULES, Reason, Seen, reasons_against
from tests.standby.world import explore

pytestmark = pytest.mark.early
# What goes wrong without a rule. The other rules are about files that this world does not have.
WITHOUT = {
    Reason.INCOMPLETE: "a machine serves without the secrets",
    Reason.BEHIND: "what was published is not so any more",
    Reason.CONTRADICTED: "what was published is not so any more",
    Reason.ANSWERS: "two machines serve",
    Reason.ELSEWHERE: "two machines serve",
    Reason.CUT_SHORT: "a round is lost that the first machine has",
}


def test_no_state_has_two_machines_or_loses_what_was_published() -> None:
    count, fault = explore(reasons_against)
    assert fault == ""
    assert count > 1000


@pytest.mark.parametrize("reason", WITHOUT)
def test_without_a_rule_something_goes_wrong(reason: Reason) -> None:
    rules = tuple(rule for rule in RULES if rule[0] is not reason)

    def judge(seen: Seen) -> tuple[Reason, ...]:
        return reasons_against(seen, rules)

    assert explore(judge)[1] == WITHOUT[reason]
