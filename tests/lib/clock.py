"""A clock for the conductor. Time passes only if a test says so."""

BEGIN = 1_795_867_200  # 12:00 UTC on November 28, 2026


class FakeClock:
    """A clock that goes only when somebody sleeps. A test may set `now`, the time of day."""

    def __init__(self) -> None:
        self.now, self.went, self.name = float(BEGIN), 1000.0, "boot 1"

    def wall(self) -> float:
        return self.now

    def passed(self) -> float:
        return self.went

    def boot(self) -> str:
        return self.name

    def sleep(self, seconds: float) -> None:
        self.now, self.went = self.now + seconds, self.went + seconds

    def restart(self, seconds: float) -> None:
        """The machine is off for this time."""
        self.now, self.went, self.name = self.now + seconds, 10.0, self.name + "'"
