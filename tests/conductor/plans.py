"""Timetables that an operator gives a conductor."""
import json
import pathlib
from collections.abc import Callable
from typing import Any

from auction.conductor import commands
from auction.conductor.context import Context
from auction.conductor.timetable import TimetableFault
from tests.lib.conducted import ConductedAuction


def time_of(seconds: int) -> str:
    """A time of the first day, in seconds after the beginning, which is at noon."""
    return f"{12 + seconds // 3600:02}:{seconds // 60 % 60:02}:{seconds % 60:02}"


def day_of(*windows: tuple[int, int]) -> dict[str, Any]:
    """A timetable of windows in seconds after the beginning."""
    times = [f"{time_of(opens)}-{time_of(closes)}" for opens, closes in windows]
    return {"days": [{"date": "2026-11-28", "windows": times}]}


def take(auction: ConductedAuction, *windows: tuple[int, int], **more: Any) -> str:
    """Gives the conductor a timetable. Returns why it is refused, or nothing.

    `auction check`, which came first, accepts no timetable that is then refused.
    """
    path = auction.folder / "timetable.json"
    path.write_text(json.dumps({**day_of(*windows), **more}))
    checked = fault_of(commands.check, auction, path)
    found = fault_of(commands.plan, auction, path)
    assert checked or not found, f"`auction check` accepts what is refused: {found}"
    return found


def fault_of(
    command: Callable[[Context, pathlib.Path], None], auction: ConductedAuction, path: pathlib.Path
) -> str:
    """Why a command refuses a timetable, or nothing."""
    try:
        command(auction.context(), path)
    except TimetableFault as fault:
        return str(fault)
    return ""
