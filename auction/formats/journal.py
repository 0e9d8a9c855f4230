"""The server's journal: its format, and a reader that reads on as it grows. It is never written."""
import dataclasses
import hashlib
import json
import os
from collections.abc import Iterator
from pathlib import Path
from typing import BinaryIO, NamedTuple

from .setup import Setup

KIND = b"clock_auction journal 1\n"
HEAD = len(KIND) + 32  # bytes before the first record: the kind, and the digest of the set-up
FRONT = 40  # bytes of a record before its text: the length twice, and the digest


def head_of(document: bytes) -> bytes:
    """The head of the journal of a set-up document."""
    return KIND + hashlib.sha256(document).digest()


def token_in(text: bytes) -> str | None:
    """The bearer token of a request."""
    for line in text.partition(b"\r\n\r\n")[0].split(b"\r\n")[1:]:
        name, _, value = line.partition(b":")
        if name.lower() == b"authorization":
            return value.split()[1].decode()
    return None


def body_in(text: bytes) -> bytes:
    """The body of an accepted request, without bytes after it."""
    head, _, rest = text.partition(b"\r\n\r\n")
    for line in head.split(b"\r\n")[1:]:
        name, _, value = line.partition(b":")
        if name.lower() == b"content-length":
            return rest[: int(value)]
    return b""


def line_in(text: bytes, name: bytes) -> str:
    """The value of a request's header line, or an empty text unless it has exactly one of them."""
    lines = text.partition(b"\r\n\r\n")[0].split(b"\r\n")[1:]
    found = [
        value for key, _, value in (line.partition(b":") for line in lines) if key.lower() == name
    ]
    return found[0].strip(b" \t").decode("latin1") if len(found) == 1 else ""


class JournalFault(Exception):
    """The journal cannot be read, is not this auction's, or is damaged."""


class JournalChanged(JournalFault):
    """The file is another journal than the one that was read, or an earlier state of it."""


class Read(NamedTuple):
    """What was read of a journal: where its last text begins, and the digest of all texts."""

    place: int
    digest: str


@dataclasses.dataclass(frozen=True)
class Entry:
    """A text in the journal: where it is, its length, and the digest of all texts up to it."""

    place: int
    length: int
    digest: str


class Journal:
    """What the accepted texts come to: the current round, its sheets in force, and all closings."""

    def __init__(self, path: Path, setup: Setup) -> None:
        self.path, self.setup = path, setup
        self.begin()

    def begin(self) -> None:
        """Nothing is read yet."""
        self.end, self.digest = HEAD, hashlib.sha256(self.setup.document).digest()
        self.last: Entry | None = None
        self.sheets: dict[str, Entry] = {}
        self.closings: list[Entry] = []

    @property
    def round(self) -> int:
        """The current round, or the one after the last if the auction has ended."""
        return len(self.closings) + 1

    def read_on(self) -> None:
        """Takes in what was added since the last call."""
        try:
            with open(self.path, "rb") as file:
                self.check_what_was_read(file)
                for entry, text in self.added(file):
                    self.take(entry, text)
        except OSError as error:
            raise JournalFault(f"{self.path}: {error}") from error

    def check_what_was_read(self, file: BinaryIO) -> None:
        """The file still begins with what was read of it.

        If the server was started on another journal, it does not.
        """
        if self.last is None:
            if file.read(HEAD) != KIND + self.digest:
                raise JournalFault(f"{self.path} is no journal of this set-up")
            return
        file.seek(self.last.place - 32)  # the digest is just before the text
        if file.read(32) != self.digest or os.fstat(file.fileno()).st_size < self.end:
            raise JournalChanged(f"{self.path} is another journal than before, or has lost its end")

    def read_up_to(self) -> Read | None:
        """What was read, or None without a text."""
        return Read(self.last.place, self.digest.hex()) if self.last else None

    def has(self, read: Read) -> bool:
        """Whether what was read here has all that was read before."""
        if not HEAD < read.place < self.end:
            return False
        with open(self.path, "rb") as file:
            file.seek(read.place - 32)  # the digest is just before the text
            return file.read(32).hex() == read.digest

    def added(self, file: BinaryIO) -> Iterator[tuple[Entry, bytes]]:
        """The whole texts after what was read.

        The last record may still be in the writing, and is then left for later.
        """
        size = os.fstat(file.fileno()).st_size
        file.seek(self.end)
        while self.end + FRONT <= size:
            front = file.read(FRONT)
            length = int.from_bytes(front[:4], "big")
            if self.end + FRONT + length > size:
                return
            text = file.read(length)
            digest = hashlib.sha256(self.digest + text).digest()
            if front[4:8] != front[:4] or front[8:] != digest:
                raise JournalFault(f"{self.path} is damaged at byte {self.end}")
            entry = Entry(self.end + FRONT, length, digest.hex())
            self.end, self.digest, self.last = self.end + FRONT + length, digest, entry
            yield entry, text

    def take(self, entry: Entry, text: bytes) -> None:
        """A sheet replaces its bidder's last one; a closing takes all sheets out of force."""
        if text.startswith(b"PUT "):
            name = self.setup.tokens.get(token_in(text) or "")
            if name is None:
                raise JournalFault(f"{self.path} has a sheet of nobody at byte {entry.place}")
            self.sheets[name] = entry
        else:
            self.closings.append(entry)
            self.sheets = {}

    def body(self, entry: Entry) -> str:
        """The body of a sheet or a closing."""
        with open(self.path, "rb") as file:
            file.seek(entry.place)
            return body_in(file.read(entry.length)).decode()

    def in_force(self) -> list[str]:
        """The bidders with a sheet in force, in the set-up's order."""
        return [name for name in self.setup.bidders if name in self.sheets]

    def bids_in_force(self) -> set[tuple[int, int, int]]:
        """The bids in force: bidder and product by number, and the quantity."""
        return {
            (bidder, bid["product"], bid["quantity"])
            for bidder, name in enumerate(self.setup.bidders)
            if name in self.sheets
            for bid in json.loads(self.body(self.sheets[name]))["bids"]
        }
