"""Timetables that the conductor takes or refuses, as values of JSON."""
from typing import Any, NamedTuple


class Refused(NamedTuple):
    """A part of the refusal's message, and the timetable that is refused with it."""

    words: str
    value: Any
    is_beyond_schema: bool = False  # a schema cannot say what is wrong


DAY = {"date": "2026-12-01", "windows": ["10:00-11:00"]}
SERIES = {"first": "10:00", "minutes": 30, "every": 60, "count": 1}
REFUSED = [
    Refused("must be an object", []),
    Refused("lacks days", {}),
    Refused("unknown key: day", {"days": [DAY], "day": 1}),
    Refused("days must be a list", {"days": DAY}),
    Refused("0 windows", {"days": []}, True),
    Refused(
        "1440 windows",
        {
            "days": [
                {
                    "from": "2026-12-01",
                    "to": "2026-12-10",
                    "windows": [{"first": "00:00", "minutes": 5, "every": 10, "count": 144}],
                }
            ]
        },
        True,
    ),
    Refused("lacks windows", {"days": [{"date": "2026-12-01"}]}),
    Refused("unknown key: weekdays", {"days": [{**DAY, "weekdays": ["Mon"]}]}),
    Refused(
        "days[1]: '2026-13-01' is not a date", {"days": [DAY, {**DAY, "date": "2026-13-01"}]}, True
    ),
    Refused(
        "'Mo' is not one of",
        {"days": [{"from": "2026-12-01", "to": "2026-12-02", "weekdays": ["Mo"], "windows": []}]},
    ),
    Refused(
        "days[0].windows[0]: '25:00' is not a time",
        {"days": [{**DAY, "windows": ["25:00-26:00"]}]},
        True,
    ),
    Refused(
        "10:00:05 is not at a whole ten seconds", {"days": [{**DAY, "windows": ["10:00:05-11:00"]}]}
    ),
    Refused("ends before it begins", {"days": [{**DAY, "windows": ["11:00-10:00"]}]}, True),
    Refused("lacks count, every, minutes", {"days": [{**DAY, "windows": [{"first": "10:00"}]}]}),
    Refused(
        "whole numbers above 0",
        {"days": [{**DAY, "windows": [{"first": "10:00", "minutes": 0, "every": 60, "count": 1}]}]},
    ),
    Refused(
        "after midnight",
        {
            "days": [
                {**DAY, "windows": [{"first": "22:00", "minutes": 30, "every": 60, "count": 3}]}
            ]
        },
        True,
    ),
    Refused(
        "minutes, every and count are at most 1440",
        {"days": [{**DAY, "windows": [{**SERIES, "count": 10_000_000}]}]},
        True,
    ),
    Refused(
        "minutes, every and count are at most 1440",
        {"days": [{**DAY, "windows": [{**SERIES, "every": 10**15}]}]},
        True,
    ),
    Refused("the year of 9999-12-31", {"days": [{**DAY, "date": "9999-12-31"}]}, True),
    Refused("the year of 0001-01-01", {"days": [{**DAY, "date": "0001-01-01"}]}, True),
    Refused(
        "is more than 3660 days",
        {"days": [{"from": "2000-01-01", "to": "2999-12-31", "windows": ["10:00-11:00"]}]},
        True,
    ),
    Refused("zone: 'Mars/Olympus' is unknown", {"zone": "Mars/Olympus", "days": [DAY]}, True),
    Refused(
        "clocks are changed",
        {"zone": "America/New_York", "days": [{"date": "2026-11-01", "windows": ["01:30-03:00"]}]},
        True,
    ),
    Refused(
        "clocks are changed",
        {"zone": "America/New_York", "days": [{"date": "2027-03-14", "windows": ["01:00-02:30"]}]},
        True,
    ),
    Refused("list of rules", {"days": [DAY], "increments": []}),
    Refused('must have "percent"', {"days": [DAY], "increments": [{"until": 3}]}),
    Refused("whole and above 0", {"days": [DAY], "increments": [{"percent": 5.5}]}),
    Refused("1 to 50 percent", {"days": [DAY], "increments": [{"percent": 51}]}),
    Refused(
        "the last rule must apply always",
        {"days": [DAY], "increments": [{"percent": 5, "excess": 10}]},
        True,
    ),
    Refused(
        "only the last rule may apply always",
        {"days": [DAY], "increments": [{"percent": 5}, {"percent": 10}]},
        True,
    ),
]
WHOLE = {
    "zone": "America/New_York",
    "days": [
        {"date": "2026-10-30", "windows": ["10:00-12:00", "14:00-16:00"]},
        {
            "from": "2026-10-31",
            "to": "2026-11-04",
            "weekdays": ["Mon", "Tue", "Wed"],
            "except": ["2026-11-03"],
            "windows": [
                {"first": "10:00", "minutes": 30, "every": 60, "count": 2},
                "15:00:10-15:00:30",
            ],
        },
    ],
    "increments": [{"until": 5, "percent": 20}, {"excess": 25, "percent": 10}, {"percent": 5}],
}
