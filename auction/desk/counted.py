"""How many requests nginx answered, by status: it writes some bytes for each to a file in memory.

nginx writes only while a file of the current ten seconds is there, which is made here. So the file
does not grow while nobody reads it.
"""
import dataclasses
import os
from collections import Counter
from collections.abc import Iterator
from pathlib import Path

from auction.conductor import disk

MOST = 8_388_608  # bytes after which the file is emptied
AHEAD = 2  # tens of seconds for which nginx may write
LINE = 4  # words of a line: status, who, what is counted at once, and whether the server was asked
KINDS = ("bidder", "network", "bidder_at_once", "network_at_once")


@dataclasses.dataclass
class Counts:
    """Requests by status, refusals as too often by kind, and connections to the server."""

    codes: Counter[str] = dataclasses.field(default_factory=Counter)
    too_often: Counter[str] = dataclasses.field(default_factory=Counter)
    connections: int = 0

    def take(self, line: bytes) -> None:
        """Takes in a line. Another one than nginx writes says nothing."""
        words = line.decode("ascii", errors="replace").split()
        if len(words) != LINE or not (words[0].isdecimal() and len(words[0]) == 3):
            return
        status, who, at_once, server = words
        self.codes[status] += 1
        self.connections += server == "server"
        if status == "429":
            self.too_often[who + ("_at_once" if at_once == "REJECTED" else "")] += 1


class Counted:
    """The file that nginx writes."""

    def __init__(self, folder: Path) -> None:
        self.path, self.marks = folder / "tmp" / "counted.log", folder / "tmp" / "counting"
        self.counts, self.end = Counts(), 0
        if self.path.exists():
            self.end = self.path.stat().st_size  # older lines were counted by an earlier process

    def allow(self, now: float) -> None:
        """Lets nginx write in the current ten seconds and the next."""
        disk.make_folder(self.marks, 0o755)
        first = int(now) // 10
        wanted = {str(ten) for ten in range(first, first + AHEAD)}
        for name in wanted:
            disk.touch(self.marks / name)
        for file in self.marks.iterdir():
            if file.name not in wanted:
                disk.unlink(file)

    def read_on(self) -> None:
        """Counts the lines that were added since the last call."""
        for line in self.added():
            self.counts.take(line)

    def added(self) -> Iterator[bytes]:
        try:
            with open(self.path, "rb") as file:
                if os.fstat(file.fileno()).st_size < self.end:
                    self.end = 0
                file.seek(self.end)
                text = file.read(MOST)
        except OSError:
            return
        whole = text[: text.rfind(b"\n") + 1]
        self.end += len(whole)
        yield from whole.splitlines()
        if self.end > MOST and len(text) < MOST:
            os.truncate(self.path, 0)  # a line that comes just now is not counted
            self.end = 0
