"""What the conductor publishes for the pages, written by a test in its formats."""
import datetime
import json
import re
import time
from collections.abc import Iterable

from tests.browser.auction import Auction
from tests.browser.window import Window

# a time as the pages show it: with its day if that is another one, with its seconds if not 0
TIME = r"[\w, ]*\d\d:\d\d(:\d\d)?"


def utc(seconds: float) -> str:
    time_of = datetime.datetime.fromtimestamp(seconds, datetime.timezone.utc)
    return time_of.strftime("%Y-%m-%dT%H:%M:%SZ")


class Published:
    """The conductor's public files of an auction, and its report to the operator."""

    def __init__(self, auction: Auction) -> None:
        self.auction = auction
        self.announced: list[dict[str, object]] = []

    def put(self, name: str, page: object) -> None:
        file = self.auction.folder / name
        file.parent.mkdir(parents=True, exist_ok=True)
        new = file.with_name(file.name + ".new")
        new.write_text(json.dumps(page))
        new.rename(file)

    def timetable(
        self,
        number: int,
        *windows: tuple[float, ...],
        paused: str | None = None,
        ended: bool = False,
    ) -> None:
        """The windows from round 1 on: seconds from now at which each opens and closes, and, if
        there is a third one, at which its results appear.
        """
        now = time.time()
        names = ("opens", "closes", "results")
        listed = [
            {"round": place, **dict(zip(names, (utc(now + moment) for moment in moments)))}
            for place, moments in enumerate(windows, 1)
        ]
        page = {"announcements": len(self.announced), "ended": ended, "paused": paused}
        self.put("public/timetable.json", {**page, "round": number, "windows": listed})

    def announce(self, text: str) -> None:
        number = len(self.announced) + 1
        one = {"key": f"key-{number}", "number": number, "text": text, "time": utc(time.time())}
        self.announced.append(one)
        self.put("public/announcements.json", {"announcements": self.announced})

    def report(
        self, state: str, words: str, number: int | None, sheets: Iterable[str] | None
    ) -> None:
        page = {"round": number, "sheets": sheets, "state": state, "until": None}
        self.put("operator/conductor.json", {**page, "waits_for": words, "time": utc(time.time())})

    def close_round(self, number: int, digest: str) -> None:
        """Publishes a closed round."""
        page = self.auction.ask(f"v1/rounds/{number}")
        page = {**page, "digest": digest, "published": utc(time.time())}
        self.put(f"public/rounds/{number}.json", page)


def shows(window: Window, words: str, left: str = ".*") -> None:
    """Waits until the page has the state of the round and the time left, as patterns."""

    def found() -> object:
        state, time_left = window.text("standing"), window.text("left")
        return re.fullmatch(words, state) and re.fullmatch(left, time_left)

    try:
        window.until(f"the page says {words}, {left}", found)
    except AssertionError as late:
        texts = (window.text("standing"), window.text("left"))
        raise AssertionError(f"{late}, but {texts}") from None
