"""What was done at the desk, and what waits for a second person: two files in the folder `state`.

A key is noted before its act begins, so an act is never done twice, also after a kill.
"""
import dataclasses
import json
import os
from pathlib import Path
from typing import Any

from auction.conductor import disk

from .acts import Given
from .powers import Waiting, Wanted

SHOWN = 50  # acts that a page shows


@dataclasses.dataclass(frozen=True)
class Act:
    """An act, and what became of it: "begun", "done", or why it changed nothing."""

    key: str
    time: str
    who: str
    words: str
    round: int
    outcome: str


class Log:
    """The acts of all desks."""

    def __init__(self, folder: Path) -> None:
        self.path, self.waiting_path = folder / "acts.jsonl", folder / "waiting.json"

    def lines(self) -> list[Act]:
        """All lines. One that a kill has cut says nothing."""
        try:
            text = self.path.read_text(encoding="utf-8")
        except FileNotFoundError:
            return []
        found = []
        for line in text.splitlines():
            try:
                found.append(Act(**json.loads(line)))
            except (ValueError, TypeError):
                continue
        return found

    def add(self, act: Act) -> None:
        """Adds a line, and brings it to the disk."""
        data = (json.dumps(dataclasses.asdict(act), sort_keys=True) + "\n").encode()
        opened = os.open(self.path, os.O_RDWR | os.O_CREAT | os.O_APPEND, disk.PRIVATE)
        try:
            size = os.fstat(opened).st_size
            if size and os.pread(opened, 1, size - 1) != b"\n":
                data = b"\n" + data  # after a line that a kill has cut
            os.write(opened, data)
            os.fsync(opened)
        finally:
            os.close(opened)
        disk.sync_folder(self.path.parent)

    def waiting(self) -> tuple[Waiting, Given] | None:
        """The act that waits, and what it is given."""
        try:
            value = json.loads(self.waiting_path.read_text(encoding="utf-8"))
        except FileNotFoundError:
            return None
        given: dict[str, Any] = value["given"]
        given["increments"] = tuple(given["increments"])
        return Waiting(Wanted(**value["wanted"]), value["since"]), Given(**given)

    def wait(self, wanted: Wanted, given: Given, now: float) -> None:
        """Lets an act wait for a second person."""
        parts: dict[str, Any] = {"wanted": dataclasses.asdict(wanted), "since": now}
        disk.store(
            self.waiting_path, json.dumps({**parts, "given": dataclasses.asdict(given)}) + "\n"
        )

    def forget(self) -> None:
        """No act waits any more."""
        if self.waiting_path.exists():
            disk.remove(self.waiting_path)
