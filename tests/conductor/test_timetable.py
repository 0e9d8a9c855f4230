"""What a timetable's file may say, and what it becomes."""
import json
import pathlib
from typing import Any

import pytest

from auction.conductor import timetable
from auction.conductor.clock import utc
from auction.conductor.increments import Rule
from auction.conductor.timetable import TimetableFault
from tests.lib.timetables import REFUSED, WHOLE, Refused

pytestmark = pytest.mark.early


def read(folder: pathlib.Path, value: Any) -> timetable.Timetable:
    (folder / "timetable.json").write_text(json.dumps(value))
    return timetable.read(folder / "timetable.json")


def test_days_weekdays_series_and_a_zone_become_windows_in_utc(tmp_path: pathlib.Path) -> None:
    found = read(tmp_path, WHOLE).windows
    assert [(utc(window.opens), utc(window.closes)) for window in found] == [
        ("2026-10-30T14:00:00Z", "2026-10-30T16:00:00Z"),
        ("2026-10-30T18:00:00Z", "2026-10-30T20:00:00Z"),
        # winter time begins on November 1
        ("2026-11-02T15:00:00Z", "2026-11-02T15:30:00Z"),
        ("2026-11-02T16:00:00Z", "2026-11-02T16:30:00Z"),
        ("2026-11-02T20:00:10Z", "2026-11-02T20:00:30Z"),
        ("2026-11-04T15:00:00Z", "2026-11-04T15:30:00Z"),
        ("2026-11-04T16:00:00Z", "2026-11-04T16:30:00Z"),
        ("2026-11-04T20:00:10Z", "2026-11-04T20:00:30Z"),
    ]


def test_increments_become_rules(tmp_path: pathlib.Path) -> None:
    found = read(tmp_path, WHOLE).increments
    assert found == [Rule(20, until=5), Rule(10, excess=25), Rule(5)]


@pytest.mark.parametrize("case", REFUSED, ids=lambda case: case.words)
def test_a_fault_is_named_with_its_place(tmp_path: pathlib.Path, case: Refused) -> None:
    with pytest.raises(TimetableFault) as fault:
        read(tmp_path, case.value)
    assert case.words in str(fault.value)


def test_a_file_that_is_no_json_is_named(tmp_path: pathlib.Path) -> None:
    (tmp_path / "timetable.json").write_text("{")
    with pytest.raises(TimetableFault, match="timetable.json"):
        timetable.read(tmp_path / "timetable.json")
