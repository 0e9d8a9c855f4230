"""What everyone sees, as files that nginx serves: timetable, announcements, closed rounds, and
winners.
"""
import json
from pathlib import Path
from types import NoneType
from typing import Any

from auction.mock import MARK

from . import disk, stored
from .clock import utc
from .plan import Plan
from .server import Page
from .settings import Folders


def closing_key(number: int) -> str:
    """The key of the announcement of a closed round."""
    return f"closed-{number}"


def opening_key(number: int, opens: int) -> str:
    """The key of the announcement that a window is open."""
    return f"open-{number}-{opens}"


def is_opening(key: str, number: int) -> bool:
    """Whether this is the key of an announcement that a window of a round is open."""
    return key.startswith(f"open-{number}-")


class PublicFiles:
    """The public files. Each is written whole, and only if it has changed.

    Those of a mock auction say so.
    """

    def __init__(self, folders: Folders, is_mock: bool = False) -> None:
        self.folders, self.is_mock = folders, is_mock

    @property
    def mark(self) -> Page:
        """What the files of a mock auction have, and others do not."""
        return {"mock": True} if self.is_mock else {}

    def published(self) -> int:
        """How many rounds are published, from round 1 on."""
        number = 0
        while self.round_file(number + 1).exists():
            number += 1
        return number

    def round_file(self, number: int) -> Path:
        return self.folders.rounds / f"{number}.json"

    def results(self, number: int) -> Page | None:
        """The round results of a published round."""
        if not number:
            return None
        path = self.round_file(number)
        page = stored.read(path, ended=bool, products=list)
        whole: stored.Kind = (int, NoneType)
        stored.check_all(path, "product", page["products"], demand=whole, next=whole, posted=int)
        return page

    def has_ended(self) -> bool:
        """Whether the last published round is the end of the auction."""
        results = self.results(self.published())
        return bool(results and results["ended"])

    def publish_round(self, number: int, results: Page, now: float) -> None:
        """Publishes what is stored of a closed round, unless it is published."""
        if not self.round_file(number).exists():
            self.put(self.round_file(number), {**results, "published": utc(now)})

    def announcements(self) -> list[dict[str, Any]]:
        file = self.folders.public / "announcements.json"
        if not file.exists():
            return []
        made: list[dict[str, Any]] = stored.read(file, announcements=list)["announcements"]
        stored.check_all(file, "announcement", made, key=str, number=int, text=str, time=str)
        return made

    def announce(self, key: str, text: str, now: float) -> str | None:
        """Adds an announcement, unless there is one of this key.

        Returns what it says, with its number, if it is new.
        """
        made = self.announcements()
        if any(one["key"] == key for one in made):
            return None
        text = MARK * self.is_mock + text
        made.append({"key": key, "number": len(made) + 1, "text": text, "time": utc(now)})
        self.put(self.folders.public / "announcements.json", {"announcements": made})
        return f"announcement {len(made)}: {text}"

    def show_timetable(self, plan: Plan) -> None:
        """The timetable as bidders' pages read it.

        It follows from the plan and from what is published.
        """
        last = self.published()
        results = self.results(last)
        ended = bool(results and results["ended"])
        windows = [
            {"round": number, "opens": utc(window.opens), "closes": utc(window.closes)}
            for number, window in plan.windows.items()
        ]
        self.put(
            self.folders.public / "timetable.json",
            {
                "announcements": len(self.announcements()),
                "ended": ended,
                "paused": plan.paused and plan.paused.words,
                "round": last if ended else last + 1,
                "windows": windows,
                **self.mark,
            },
        )

    def publish_winners(self, file: Path) -> None:
        """Publishes what each bidder has won, and pays at the posted prices of the last round.

        Winners that are published stay.
        """
        if (self.folders.public / "winners.json").exists():
            return
        self.put(self.folders.public / "winners.json", self.winners_of(file))

    def winners_of(self, file: Path) -> Page:
        """What each bidder has won, by the file of the server's last results."""
        last = self.published()
        results = stored.read(file, bidders=list)
        stored.check_all(file, "bidder", results["bidders"], name=str, demands=list)
        posted = [product["posted"] for product in (self.results(last) or {})["products"]]
        bidders = [
            {
                "name": bidder["name"],
                "demands": bidder["demands"],
                "pays": sum(map(int.__mul__, bidder["demands"], posted)),
            }
            for bidder in results["bidders"]
        ]
        return {"bidders": bidders, "round": last, **self.mark}

    def put(self, path: Path, value: Page) -> None:
        """Writes a file if it has changed, with the time of another second than before: nginx knows
        its versions by time and length.
        """
        text = json.dumps(value, separators=(",", ":")) + "\n"
        before = path.stat().st_mtime if path.exists() else 0.0
        if not before or path.read_bytes() != text.encode():
            disk.store(path, text, disk.PUBLIC, before)
