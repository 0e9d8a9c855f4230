"""The bytes of a journal that are synced, and those that are only written, at each call."""
import hashlib
from dataclasses import dataclass, field

from tests.crash.order import SYNCS
from tests.crash.record import Outcome, Recorded, Request
from tests.lib.journals import FRONT, HEAD, each_text_of


@dataclass(frozen=True)
class Texts:
    """A whole journal.

    It has where its head and each record end, and the digests of the set-up and of each request.
    """

    journal: bytes
    ends: list[int]
    digests: list[str]

    def within(self, length: int) -> int:
        """The number of requests whose records end within this length."""
        return sum(end <= length for end in self.ends[1:])

    def whole_in(self, file: bytes) -> int:
        """The number of requests whose records a file has whole, from the first on."""
        return sum(end <= len(file) and file[:end] == self.journal[:end] for end in self.ends[1:])


@dataclass(frozen=True)
class Moment:
    """The calls from one sync to the next: what is synced, and what is written before the next.

    `sizes` are the lengths of the file after each write. If the file was truncated, `cut` is the
    new length. `replied` counts the requests up to the last one whose reply had begun, `least` also
    those that are synced, and `most` all that are written.
    """

    synced: bytes
    written: bytes
    sizes: tuple[int, ...]
    replied: int
    least: int
    most: int
    cut: int | None = None


@dataclass
class Disk:
    """The file during the calls of a record."""

    texts: Texts
    synced: bytes = b""
    written: bytes = b""
    sizes: list[int] = field(default_factory=list)
    replied: int = 0
    moments: list[Moment] = field(default_factory=list)

    def write(self, content: bytes) -> None:
        """Appends bytes that are not synced yet."""
        self.written += content
        self.sizes.append(len(self.written))

    def sync(self) -> None:
        """Syncs all bytes. Adds a moment if there were new ones."""
        if self.sizes:
            self.add_moment(None)
        self.synced, self.sizes = self.written, []

    def cut(self, place: int) -> None:
        """Truncates the file. Adds a moment if it was longer."""
        if place < len(self.written):
            self.add_moment(place)
        self.synced, self.written, self.sizes = self.synced[:place], self.written[:place], []

    def end(self) -> None:
        """Adds the last moment, if some bytes were never synced."""
        self.sync()

    def add_moment(self, cut: int | None) -> None:
        """Adds the moment from the last sync until now."""
        least = max(self.replied, self.texts.whole_in(self.synced))
        most = self.texts.whole_in(self.written)
        self.moments.append(
            Moment(self.synced, self.written, tuple(self.sizes), self.replied, least, most, cut)
        )

    def reply(self, request: Request) -> None:
        """Counts the requests up to one whose reply begins."""
        if request.outcome is Outcome.LOGGED:
            self.replied = self.texts.whole_in(self.written)


def texts_in(document: bytes, journal: bytes) -> Texts:
    """The requests of a whole journal."""
    ends, digests = [HEAD], [hashlib.sha256(document).hexdigest()]
    for text, digest in each_text_of(document, journal, len(journal)):
        ends.append(ends[-1] + FRONT + len(text))
        digests.append(digest)
    return Texts(journal, ends, digests)


def moments_of(generations: list[Recorded], texts: Texts) -> list[Moment]:
    """The moments of all generations of a journal.

    The next start finds what a generation leaves unsynced.
    """
    disk = Disk(texts)
    for generation in generations:
        requests = iter(generation.requests)
        for call in generation.calls:
            match call.name:
                case "write":
                    disk.write(call.content)
                case "ftruncate":
                    disk.cut(call.number)
                case "accept":
                    request = next(requests)
                case "send":
                    disk.reply(request)
                case name if name in SYNCS:
                    disk.sync()
    disk.end()
    return disk.moments
