"""Publishes a practice for the pages, in the files and formats of a real auction."""
import json
import pathlib
import time
from collections.abc import Callable
from typing import Any

from auction.conductor.clock import utc


def say(text: str) -> None:
    """Shows words in the terminal."""
    print(f"\n{time.strftime('%H:%M:%S')}  {text}", flush=True)


def put(path: pathlib.Path, page: object) -> None:
    """Replaces a file. A reader sees the old page or the new one."""
    new = path.with_name(path.name + ".new")
    new.write_text(json.dumps(page))
    new.rename(path)


class Board:
    """The files of a folder's `public`."""

    def __init__(
        self,
        folder: pathlib.Path,
        notice: str,
        worth: list[list[int]],
        say: Callable[[str], None] = say,
    ) -> None:
        self.public = folder / "public"
        self.always: dict[str, Any] = {"notice": notice, "worth": worth}
        self.say = say
        self.announced: list[dict[str, Any]] = []
        self.windows: list[dict[str, Any]] = []
        (self.public / "rounds").mkdir(parents=True)

    def announce(self, text: str) -> None:
        """Shows words to the player, on the page and in the terminal if there is one."""
        number = len(self.announced) + 1
        self.announced.append(
            {"key": f"practice-{number}", "number": number, "text": text, "time": utc(time.time())}
        )
        put(self.public / "announcements.json", {"announcements": self.announced})
        self.say(text)

    def open_round(self, number: int, closes: float | None, note: str | None = None) -> None:
        """Adds the window of a round to the timetable."""
        self.windows.append(
            {"round": number, "opens": utc(time.time()), "closes": None, "note": note}
        )
        self.close_at(number, closes)

    def close_at(self, number: int, closes: float | None) -> None:
        """Sets when the round closes. None means that it is open."""
        self.windows[-1]["closes"] = None if closes is None else utc(closes)
        self.timetable(number, False)

    def timetable(self, number: int, ended: bool) -> None:
        """Publishes the timetable, with the page's notice and values."""
        put(
            self.public / "timetable.json",
            {
                "announcements": len(self.announced),
                "ended": ended,
                "paused": None,
                "round": number,
                "windows": self.windows,
                **self.always,
            },
        )

    def close_round(self, page: dict[str, Any], digest: str) -> None:
        """Publishes a closed round as the server shows it, with the digest of its closing."""
        put(
            self.public / "rounds" / f"{page['round']}.json",
            {**page, "digest": digest, "published": utc(time.time())},
        )

    def winners(self, number: int, results: list[dict[str, Any]], posted: list[int]) -> None:
        """Publishes what each bidder won and pays."""
        bidders = [
            {
                "name": bidder["name"],
                "demands": bidder["demands"],
                "pays": sum(map(int.__mul__, bidder["demands"], posted)),
            }
            for bidder in results
        ]
        put(self.public / "winners.json", {"round": number, "bidders": bidders})
