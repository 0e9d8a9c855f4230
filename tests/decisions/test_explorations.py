"""All that can happen to a small auction of two rounds breaks no invariant (explorer.py has them).

Bidders, nginx, server, operator, and clock are a model. The decisions are those of the conductor.
`pytest tests/decisions --two-troubles` also explores two troubles at once, for some minutes.
"""
import pytest

from tests.decisions.explorer import BEGINNINGS, MORE, Record, check_all

pytestmark = pytest.mark.early


@pytest.mark.parametrize("name", [name for name in BEGINNINGS if "clock" not in name])
def test_exploration(name: str, record_property: Record) -> None:
    check_all(BEGINNINGS[name], record_property)


@pytest.mark.slow
@pytest.mark.timeout(3600)
@pytest.mark.parametrize("name", MORE)
def test_two_troubles(name: str, record_property: Record) -> None:
    check_all(MORE[name], record_property)
