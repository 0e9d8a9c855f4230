"""Receipts: each accepted sheet is signed. All that a look finds appear at the next second."""
import fcntl
import json
import os
import time
from collections import Counter
from collections.abc import Callable
from pathlib import Path
from typing import Protocol

from auction.conductor import disk
from auction.formats.journal import Entry, Journal, JournalFault
from auction.formats.receipts import Receipt, Refusal
from auction.formats.sent import time_of
from auction.formats.setup import Setup
from auction.formats.signatures import secret_key
from auction.mock import Kind

# nginx's workers read them as the folder's group, and no other user does.
FILE, FOLDER = 0o640, 0o750
# No bidder has such a name. The link leads to one of the two folders.
NOW, SIDES = ".now", (".a", ".b")
FAULTS = (JournalFault, OSError, ValueError)


class OtherAuction(Exception):
    """The folder has another key than the one that was read: it is of another auction by now."""


class Sheets(Journal):
    """The journal, with the receipts of sheets that were not signed yet."""

    def __init__(self, path: Path, setup: Setup) -> None:
        super().__init__(path, setup)
        self.fresh: list[Receipt] = []
        self.counts = Counter[str]()

    def take(self, entry: Entry, text: bytes) -> None:
        """Numbers a bidder's sheets of a round."""
        number = self.round
        super().take(entry, text)
        if number < self.round:
            self.counts.clear()
            return
        name = next(name for name, sheet in self.sheets.items() if sheet is entry)
        self.counts[name] += 1
        self.fresh.append(Receipt.of(self.setup.digest, name, number, self.counts[name], text))


class Shelf:
    """Files that appear all at the same moment, however many they are.

    Two folders have the same files. The link `.now` leads to the one that is seen. New files are
    written to the other one, and then the link is changed. `seen/NAME` is a link too, so nginx
    finds a bidder's files under its name.
    """

    def __init__(self, folder: Path, names: list[str]) -> None:
        self.folder, self.names = folder, names
        self.lacks: dict[str, dict[str, str]] = {side: {} for side in SIDES}

    def seen(self) -> str:
        """The folder that is seen, or an empty text if there is none yet."""
        link = self.folder / NOW
        return os.readlink(link) if link.is_symlink() else ""

    def add(self, name: str, text: str) -> None:
        """Notes a file that both folders must have."""
        for side in SIDES:
            self.lacks[side][name] = text

    def write(self) -> int:
        """Writes all files to the folder that is not seen. Returns how many are not seen yet."""
        seen = self.seen()
        if seen:
            self.lacks[seen] = self.other_than_there(seen)
        unseen = self.lacks[seen or SIDES[1]]
        if unseen:
            hidden = self.hidden(seen)
            for name, text in self.other_than_there(hidden).items():
                file = self.folder / hidden / name
                for folder in (self.folder / hidden, file.parent):
                    folder.mkdir(FOLDER, exist_ok=True)
                disk.show(file, text, FILE)
            self.lacks[hidden] = {}
        return len(unseen)

    def show(self) -> None:
        """Shows what was written, by one change of the link."""
        for name in self.names:
            if not (self.folder / name).is_symlink():
                disk.lead(self.folder / name, f"{NOW}/{name}")
        disk.lead(self.folder / NOW, self.hidden(self.seen()))

    def hidden(self, seen: str) -> str:
        return next(side for side in SIDES if side != seen)

    def other_than_there(self, side: str) -> dict[str, str]:
        """The files that a folder lacks, or has with another text, as after a loss of power."""

        def text_of(name: str) -> str | None:
            file = self.folder / side / name
            return file.read_text(encoding="utf-8") if file.exists() else None

        return {name: text for name, text in self.lacks[side].items() if text_of(name) != text}


class Refusals:
    """The sheets that nginx refused because no window was open, from nginx's log of them."""

    def __init__(self, path: Path | None, setup: Setup) -> None:
        self.path, self.setup, self.place = path, setup, 0
        self.last: dict[str, Refusal] = {}

    def read_on(self) -> list[Refusal]:
        """The last refusal of each bidder that has one since the last call.

        The log is brought to the disk first, so a refusal keeps its number after a loss of power.
        """
        if self.path is None or not self.path.exists():
            return []
        with open(self.path, "rb") as file:
            file.seek(self.place)
            text = file.read()
            whole = text[: text.rfind(b"\n") + 1]
            if whole:
                os.fsync(file.fileno())
        self.place += len(whole)
        before = self.last.copy()
        for line in whole.splitlines():
            self.take(line)
        return [one for name, one in self.last.items() if one != before.get(name)]

    def take(self, line: bytes) -> None:
        """Counts a line of the log. A full disk may have left a part of one, which counts not.

        A take-over writes a line with a number, of what another machine has signed.
        """
        try:
            value = json.loads(line)
            bidder, by, time_ = value["bidder"], value["by"], time_of(value["second"])
            signed = int(value.get("number", 0))
        except (ValueError, LookupError, TypeError):
            return
        if bidder in self.setup.bidders and time_:
            before = self.last[bidder].number if bidder in self.last else 0
            number, is_mock = signed or before + 1, self.setup.kind is Kind.MOCK
            if number > before:
                whose = self.setup.digest, bidder, by
                self.last[bidder] = Refusal(*whose, number, time_, is_mock)


class Signer:
    """Signs by the secret key, for a folder that nginx reads."""

    def __init__(
        self, sheets: Sheets, secret: bytes, folder: Path, refused: Path | None = None
    ) -> None:
        self.sheets, self.key = sheets, secret_key(secret)
        self.folder, self.shelf = folder, Shelf(folder, sheets.setup.bidders)
        self.refusals = Refusals(refused, sheets.setup)
        self.unseen = 0

    def look(self) -> None:
        """Signs what the journal has, and writes it where nobody sees it yet.

        The journal is brought to the disk first: a receipt is never for a sheet that a crash could
        still take.
        """
        self.sheets.read_on()
        if self.sheets.fresh:
            sync(self.sheets.path)
        for receipt in self.sheets.fresh:
            page = receipt.page(self.key.sign(receipt.message()))
            self.shelf.add(f"{receipt.bidder}/{receipt.round}-{receipt.sheet}.json", page)
        self.sheets.fresh.clear()
        for refusal in self.refusals.read_on():
            page = refusal.page(self.key.sign(refusal.message()))
            self.shelf.add(f"{refusal.bidder}/refused.json", page)
        self.unseen = self.shelf.write()

    def show(self) -> int:
        """Shows all that the look found. Returns how many receipts that is."""
        if self.unseen:
            self.shelf.show()
        return self.unseen


def sync(path: Path) -> None:
    """Brings a file to the disk that another process writes."""
    with open(path, "rb") as file:
        os.fsync(file.fileno())


# ---- The service


class Clock(Protocol):
    """What the service knows of time."""

    def time(self) -> float:
        ...

    def sleep(self, seconds: float, /) -> None:
        ...


def seconds_to_wait(now: float) -> float:
    """How long it is until receipts appear: until the next whole second, however many they are."""
    return 1 - now % 1


def wait(clock: Clock) -> None:
    """Waits until receipts may appear."""
    clock.sleep(seconds_to_wait(clock.time()))


def run(
    signer: Signer,
    say: Callable[[str], None],
    check: Callable[[], None] = lambda: None,
    clock: Clock = time,
) -> None:
    """Looks once a second, for good. If that fails, says so once, and tries again.

    `check` raises OtherAuction if this must end.
    """
    said = ""
    while True:
        words = ""
        try:
            check()
            signer.look()
            wait(clock)
            signer.show()
        except FAULTS as fault:
            words = f"no sheet gets a receipt: {fault}"
            wait(clock)
        if words != said:
            say(words or "sheets get receipts again")
        said = words


class Key:
    """The secret key, which only one service at a time reads from this file.

    While it does, `auction clear` does not put the folder away.
    """

    def __init__(self, path: Path) -> None:
        self.path, self.file = path, open(path, "rb")
        try:
            fcntl.flock(self.file, fcntl.LOCK_EX | fcntl.LOCK_NB)
        except OSError as error:
            raise ValueError(f"another `auction receipts` runs: it has {path}") from error
        self.secret = self.file.read()

    def check(self) -> None:
        """Raises OtherAuction if the file is another one by now, or none."""
        try:
            is_same = os.path.samestat(os.fstat(self.file.fileno()), os.stat(self.path))
        except OSError:
            is_same = False
        if not is_same:
            raise OtherAuction(f"{self.path} is not the file that was read: start again")
