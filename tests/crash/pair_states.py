"""The two files that a power loss can leave of a journal in two files, also if one file is lost."""
from collections.abc import Iterator
from dataclasses import dataclass, field

from tests.crash.moments import Texts
from tests.crash.order import SYNCS
from tests.crash.record import Call, Outcome, Recorded
from tests.lib.journals import HEAD

SOUND, FIRST_LOST, SECOND_LOST = "both disks are sound", "the first is lost", "the second is lost"


@dataclass(frozen=True)
class Pair:
    """Two files after a power loss. A start must resume with `least` to `most` requests.

    A file that is not there is `None`.
    """

    kind: str
    files: tuple[bytes | None, bytes | None]
    least: int
    most: int


@dataclass
class Disk:
    """One of the two files during the calls of a record."""

    synced: bytes = b""
    written: bytes = b""

    def take(self, call: Call) -> None:
        """Does a call. A truncated file is synced before, so a crash then leaves either length."""
        if call.name == "write":
            self.written += call.content
        if call.name == "ftruncate":
            self.written = self.written[: call.number]
            self.synced = self.synced[: call.number]
        if call.name in SYNCS:
            self.synced = self.written

    def left(self) -> set[bytes | None]:
        """What a sound disk leaves: all that is synced, and some prefixes of the rest."""
        low, high = len(self.synced), len(self.written)
        lengths = {low, (low + high) // 2, max(high - 1, low), high}
        return {self.written[:length] for length in lengths}

    def lost(self) -> set[bytes | None]:
        """What is left of a lost file: nothing, or any prefix of it."""
        lengths = {0, HEAD - 1, len(self.written) // 2}
        return {None, *(self.written[:length] for length in lengths)}


@dataclass
class Disks:
    """Both files during the calls of a record, and the requests whose reply has begun."""

    texts: Texts
    one: Disk = field(default_factory=Disk)
    other: Disk = field(default_factory=Disk)
    replied: int = 0

    def pairs(self) -> Iterator[Pair]:
        """Yields the files that a power loss leaves now."""
        for kind, ones, others, synced in (
            (SOUND, self.one.left(), self.other.left(), [self.one.synced, self.other.synced]),
            (FIRST_LOST, self.one.lost(), self.other.left(), [self.other.synced]),
            (SECOND_LOST, self.one.left(), self.other.lost(), [self.one.synced]),
        ):
            least = max(self.replied, *map(self.texts.whole_in, synced))
            most = max(map(self.texts.whole_in, (self.one.written, self.other.written)))
            for first in sorted(ones, key=key_of):
                for second in sorted(others, key=key_of):
                    yield Pair(kind, (first, second), least, most)


def key_of(content: bytes | None) -> tuple[bool, bytes]:
    """Sorts files, those that are not there first."""
    return content is not None, content or b""


def pairs_of(generations: list[Recorded], texts: Texts) -> list[Pair]:
    """All pairs of files, each once, with the strictest bounds of all moments that leave it."""
    found: dict[tuple[str, tuple[bytes | None, bytes | None]], Pair] = {}
    disks = Disks(texts)
    for generation in generations:
        requests = iter(generation.requests)
        for call in generation.calls:
            if call.name == "accept":
                request = next(requests)
            if call.name == "send" and request.outcome is Outcome.LOGGED:
                disks.replied = texts.whole_in(disks.one.written)
            before = list(disks.pairs()) if call.name == "ftruncate" else []
            (disks.other if call.is_mirror else disks.one).take(call)
            for pair in [*before, *disks.pairs()]:
                same = found.get((pair.kind, pair.files), pair)
                least, most = max(pair.least, same.least), min(pair.most, same.most)
                found[pair.kind, pair.files] = Pair(pair.kind, pair.files, least, most)
    return list(found.values())
