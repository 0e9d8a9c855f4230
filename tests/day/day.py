"""A day of an auction for real: server, nginx and conductor, which is killed again and again."""
import json
import pathlib
import random
import subprocess
import sys
import threading
import time
from collections.abc import Iterator
from typing import Any

from auction.conductor.clock import utc
from auction.conductor.observed import whole_ten
from tests.day.bidding import Bidder, Reader, Sent
from tests.lib.conducted import small_setup
from tests.lib.paths import AUCTION, auction
from tests.lib.setups import OPERATOR
from tests.lib.site import Site
from tests.lib.waiting import wait_for

GAP = 12  # seconds of drain and the longest closing
MARGIN = 0.15  # seconds by which a request's time is not known
DAY = 86_400
Window = tuple[float, float]


class Day:
    """The auction, its processes, and what was seen.

    `shown` has the windows that bidders saw of each round. On a busy machine a conductor must live
    longer to do anything, so all times are multiplied by `slowness`.
    """

    def __init__(
        self,
        program: pathlib.Path,
        folder: pathlib.Path,
        rounds: int,
        window: int,
        chance: random.Random,
    ) -> None:
        self.rounds, self.window, self.chance = rounds, window, chance
        self.between = 8 if rounds > 1 else 0
        self.kills, self.slowness = 0, 1.0
        self.shown: dict[int, list[Window]] = {}
        self.over = threading.Event()
        self.site = Site(folder, program, small_setup())
        self.folder = self.site.folder
        self.write_settings()
        self.log = open(self.folder / "conductor.log", "wb")
        self.reader = self.reader_of("X")

    def write_settings(self) -> None:
        (self.folder / "gate/open").unlink()
        (self.folder / "operator.token").write_text(OPERATOR + "\n")
        settings = {
            "url": f"http://127.0.0.1:{self.site.inside}",
            "port": self.site.server_port,
            "setup": "setup.json",
            "token": "operator.token",
            "journal": "auction.journal",
            "drain": 2,
            "missed": 100,
            "publish": 0,
            "between": self.between,
            "notice": 0,
        }
        (self.folder / "conductor.json").write_text(json.dumps(settings))

    def reader_of(self, name: str) -> Reader:
        return Reader(self.folder, self.site.outside, name)

    def stop(self) -> None:
        self.over.set()
        self.site.stop()
        self.log.close()

    # ---- The conductor and its commands

    def command(self, word: str, *words: object, status: int = 0) -> str:
        """Gives a command. Returns what it prints."""
        ran = auction(word, self.folder, *words)
        assert ran.returncode == status, (word, ran.stdout, ran.stderr)
        return ran.stdout + ran.stderr

    def status(self) -> str:
        return auction("status", self.folder).stdout

    def said(self) -> str:
        return (self.folder / "conductor.log").read_text()[-900:]

    def begin(self) -> None:
        words = [sys.executable, str(AUCTION), "run", str(self.folder)]
        quiet = subprocess.DEVNULL
        self.conductor = self.site.keep(
            subprocess.Popen(words, stdin=quiet, stdout=self.log, stderr=self.log)
        )

    def kill(self) -> None:
        """Ends the conductor at once, and starts it again."""
        assert self.conductor.poll() is None, f"the conductor ended by itself: {self.said()}"
        self.conductor.kill()
        self.conductor.wait()
        self.kills += 1
        self.begin()

    # ---- The timetable

    def plan(self) -> None:
        """Gives the conductor a timetable from the next whole ten seconds on."""
        times = list(self.times())
        days = [
            {
                "date": utc(opens)[:10],
                "windows": [f"{utc(opens)[11:19]}-{utc(closes)[11:19]}"],
            }
            for opens, closes in times
        ]
        file = self.folder / "timetable.json"
        file.write_text(json.dumps({"days": days}))
        self.command("plan", file)
        checked = self.command("check", file).split()
        assert checked[1::2] == [utc(closes) for _, closes in times]

    def times(self) -> Iterator[tuple[int, int]]:
        """When each round opens and closes. No window crosses midnight."""
        first = int(time.time() + self.slowness) // 10 * 10 + 10
        length = self.window + whole_ten(GAP + self.between)
        if first // DAY != (first + self.rounds * length) // DAY:
            first = (first // DAY + 1) * DAY
        for number in range(self.rounds):
            yield first + number * length, first + number * length + self.window

    def table(self) -> Any:
        """The timetable as a bidder sees it. Notes what it says of each round."""
        status, page = self.reader.ask("GET", "/public/timetable.json")
        assert status == 200, page
        for window in page["windows"]:
            opens, closes = (seconds_of(window[key]) for key in ("opens", "closes"))
            said = self.shown.setdefault(window["round"], [])
            if (opens, closes) not in said:
                said.append((opens, closes))
        return page

    def was_open(self, opened: float, sent: Sent) -> bool | None:
        """Whether the gate was open by the timetables that were shown.

        None if the moment is too near to a change.
        """
        shown = self.shown[sent.number]
        inside = {
            opened + MARGIN < sent.begun and sent.ended < closes - MARGIN for _, closes in shown
        }
        is_shut = all(
            sent.ended < opens - MARGIN or sent.begun > closes + MARGIN for opens, closes in shown
        )
        return True if inside == {True} else False if is_shut else None

    # ---- The day

    def run(self) -> list[Sent]:
        """Kills the conductor until the auction has ended, and gives a command now and then.

        Returns the sheets that were sent.
        """
        begun = time.monotonic()
        self.begin()
        report = self.folder / "operator/conductor.json"
        wait_for("the conductor reports", report.exists, 30)
        self.slowness = max(1.0, (time.monotonic() - begun) / 0.5)
        self.plan()
        bidders = [self.bidder("X", lambda: 0.5), self.bidder("Y", self.some_time)]
        for bidder in bidders:
            bidder.start()
        assert "another conductor runs" in self.command("run", status=1)
        self.kill_until_the_end()
        self.over.set()
        for bidder in bidders:
            bidder.join(20)
            assert bidder.fault is None
        return [each for bidder in bidders for each in bidder.sent]

    def bidder(self, name: str, waits: Any) -> Bidder:
        return Bidder(self.reader_of(name), self.rounds, name, waits, self.over)

    def some_time(self) -> float:
        return self.chance.uniform(0.5, 1.2)

    def kill_until_the_end(self) -> None:
        commands = self.commands() if self.rounds >= 3 else iter(())
        end = time.monotonic() + 30 + self.rounds * (self.window + 60) * self.slowness
        while not self.table()["ended"]:
            assert time.monotonic() < end, f"it comes to no end: {self.status()}; {self.said()}"
            time.sleep(self.chance.uniform(0.1, 2.2) * self.slowness)
            self.kill()
            next(commands, None)

    def commands(self) -> Iterator[None]:
        """Gives commands at moments of the day."""
        while self.table()["round"] < 2 or "Round 2 is open" not in self.status():
            yield
        self.command("announce", "The help desk is at extension 105.")
        self.command("extend", "0.5")
        yield
        self.command("pause", "A fire alarm.")
        for _ in range(3):
            yield
        assert "A fire alarm." in self.command("status", status=3)
        self.command("resume", "0.1")


def seconds_of(text: str) -> float:
    """A time of the timetable, in UTC seconds."""
    return time.mktime(time.strptime(text, "%Y-%m-%dT%H:%M:%SZ")) - time.timezone
