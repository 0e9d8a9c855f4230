"""When bidders were seen last, and when each sent a sheet, by nginx's log of requests."""
import datetime
import json
import os
from pathlib import Path
from typing import Any

from auction.conductor.clock import utc

MOST = 16_777_216  # bytes at the log's end that are read at a start
SHEET = "PUT /v1/me/bids"


class Activity:
    """Reads the log as it grows. `seen` and `sent` have times in UTC, by bidder."""

    def __init__(self, path: Path) -> None:
        self.path = path
        self.seen: dict[str, str] = {}
        self.sent: dict[str, str] = {}
        self.file, self.end = -1, 0  # the log's inode, and up to where it was read

    def read_on(self) -> None:
        """Takes in what was added since the last call. A log that is not there has nothing."""
        try:
            with open(self.path, "rb") as file:
                found = os.fstat(file.fileno())
                if found.st_ino != self.file or found.st_size < self.end:
                    self.file, self.end = found.st_ino, max(0, found.st_size - MOST)
                file.seek(self.end)
                text = file.read(MOST)
        except OSError:
            return
        whole = text[: text.rfind(b"\n") + 1]
        self.end += len(whole)
        for line in whole.splitlines():
            self.take(line)

    def take(self, line: bytes) -> None:
        """Takes in a line. One that is cut, or of no bidder, says nothing."""
        if b'"bidder":""' in line:
            return
        try:
            value = json.loads(line)
            name, time = value["bidder"], utc_of(value["time"])
            is_sheet = value["request"].startswith(SHEET) and value["status"] == 200
        except (ValueError, KeyError, TypeError, AttributeError):
            return
        self.seen[name] = time
        if is_sheet:
            self.sent[name] = time


def utc_of(text: Any) -> str:
    """A time with its offset, as nginx writes it, in UTC."""
    return utc(datetime.datetime.fromisoformat(text).timestamp())
