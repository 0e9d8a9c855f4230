"""A step of the clock at any moment breaks no invariant of a small auction."""
import pytest

from tests.decisions.explorer import BEGINNINGS, Record, check_all

pytestmark = pytest.mark.early


@pytest.mark.parametrize("name", [name for name in BEGINNINGS if "clock" in name])
def test_exploration(name: str, record_property: Record) -> None:
    check_all(BEGINNINGS[name], record_property)
