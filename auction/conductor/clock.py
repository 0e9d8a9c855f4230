"""The time of day, the time that has passed, and times in words."""
import datetime
import time
from pathlib import Path
from typing import Protocol


class Clock(Protocol):
    """What the conductor knows of time."""

    def wall(self) -> float:
        """The time of day in UTC seconds. A person or NTP may set it."""

    def passed(self) -> float:
        """Seconds since the machine started, also while it slept. Nobody can set it."""

    def boot(self) -> str:
        """Another text after each start of the machine."""

    def sleep(self, seconds: float) -> None:
        ...


class MachineClock:
    """The clock of this machine."""

    def wall(self) -> float:
        return time.time()

    def passed(self) -> float:
        return time.clock_gettime(time.CLOCK_BOOTTIME)

    def boot(self) -> str:
        return Path("/proc/sys/kernel/random/boot_id").read_text(encoding="ascii").strip()

    def sleep(self, seconds: float) -> None:
        time.sleep(seconds)


def utc(seconds: float) -> str:
    """A time as files have it: 2026-12-01T15:00:00Z."""
    return datetime.datetime.fromtimestamp(int(seconds), datetime.timezone.utc).strftime(
        "%Y-%m-%dT%H:%M:%SZ"
    )


def seconds_of(text: str) -> int:
    """A time as files have it, in UTC seconds."""
    return int(datetime.datetime.fromisoformat(text).timestamp())


def in_words(seconds: float) -> str:
    """A time as people read it: 15:00 UTC on December 1."""
    moment = datetime.datetime.fromtimestamp(int(seconds), datetime.timezone.utc)
    return (
        moment.strftime("%H:%M:%S" if moment.second else "%H:%M")
        + f" UTC on {moment:%B} {moment.day}"
    )
