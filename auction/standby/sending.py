"""The machine that serves: it sends a standby what is new, pass by pass.

A pass has the journal up to some moment, and all other files of an earlier one. So a copy never has
a published round, or a receipt, that its journal does not have.
"""
import dataclasses
import socket
from collections.abc import Callable
from pathlib import Path

from auction.conductor import disk
from auction.conductor.clock import utc
from auction.conductor.settings import Settings
from auction.formats.journal import Journal
from auction.formats.setup import Setup
from auction.receipts import sync

from .facts import identity_of
from .frames import Frame, Line
from .listing import Listing, Place

PIECE = 1 << 20
FIRST_SECONDS = 60  # for a machine that begins, or stores a whole first pass


class Refused(Exception):
    """Why the other machine takes no copy."""


@dataclasses.dataclass(frozen=True)
class Passed:
    """What a standby has after a pass, and its clock less this one's."""

    time: float
    round: int
    length: int
    ahead: float

    def in_words(self, host: str) -> str:
        clock = f"; its clock differs by {self.ahead:+.0f} s" if abs(self.ahead) > 1 else ""
        return (
            f"{host} has all up to {utc(self.time)}: round {self.round}, "
            f"{self.length:,} bytes of journal{clock}"
        )


class Sender:
    """Sends an auction's folder over a line."""

    def __init__(self, folder: Path, line: Line, clock: Callable[[], float]) -> None:
        self.folder, self.line, self.clock = folder, line, clock
        settings = Settings.read(folder)
        self.journal = Journal(settings.journal, Setup.read(settings.setup))
        self.listing = Listing(folder, settings.journal)
        self.sent: dict[str, tuple[Place, str]] = {}
        self.digests: dict[str, str] | None = None
        self.length = 0

    def greet(self) -> None:
        """Says which auction this is, and learns what the other machine has of its journal."""
        path = self.journal.path
        inside = path.relative_to(self.folder) if self.folder in path.parents else path
        auction, host = identity_of(self.folder), socket.gethostname()
        self.line.send("hello", host=host, auction=auction, journal=str(inside))
        answer = self.answer()
        self.length = int(answer.says["end"])
        if self.length:
            self.check_begin(int(answer.says["digest_at"]), str(answer.says["digest"]))

    def check_begin(self, place: int, digest: str) -> None:
        """This journal must begin with the other machine's."""
        with open(self.journal.path, "rb") as file:
            size = file.seek(0, 2)
            file.seek(place)
            if self.length > size or file.read(32).hex() != digest:
                raise Refused("it has another journal, or more of it than this machine")

    def one_pass(self) -> Passed:
        """Sends what is new. Returns what the other machine has then."""
        with disk.locked(self.folder / "state/plan.lock"):  # no change is half seen
            folders, files, contents = self.listing.read()
        self.journal.read_on()
        self.send_journal()
        for name, place in folders.items():
            if self.sent.get(name) != (place, ""):
                self.line.send("folder", name=name, **dataclasses.asdict(place))
        for name, (place, digest) in files.items():
            if self.sent.get(name) != (place, digest):
                content = contents.get(name) or (self.folder / name).read_bytes()
                self.line.send("file", content, name=name, **dataclasses.asdict(place))
        self.sent = {**{name: (place, "") for name, place in folders.items()}, **files}
        return self.end_pass({name: digest for name, (_, digest) in files.items()})

    def send_journal(self) -> None:
        """Sends what the journal has more, once it is on the disk."""
        if self.journal.end > self.length:
            sync(self.journal.path)
        with open(self.journal.path, "rb") as file:
            file.seek(self.length)
            while self.length < self.journal.end:
                piece = file.read(min(PIECE, self.journal.end - self.length))
                self.line.send("journal", piece, at=self.length)
                self.length += len(piece)

    def end_pass(self, digests: dict[str, str]) -> Passed:
        """Lets the other machine store the pass, and learns what it has."""
        now = self.clock()
        self.line.send("pass", time=now, files=None if digests == self.digests else digests)
        self.digests = digests
        answer = self.answer()
        if answer.says["end"] != self.journal.end:
            raise Refused("it has not stored the whole journal")
        ahead = float(answer.says["now"]) - now
        return Passed(now, self.journal.round, self.journal.end, ahead)

    def answer(self) -> Frame:
        """The other machine's answer, which may be a refusal."""
        answer = self.line.receive(FIRST_SECONDS)
        if answer.kind != "have":
            raise Refused(str(answer.says.get("words", "it says something else")))
        return answer
