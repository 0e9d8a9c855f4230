"""The files that a power loss can leave, by the assumption on the disk that each breaks."""
from collections.abc import Iterable, Iterator
from dataclasses import dataclass
from itertools import product

from tests.crash.moments import Moment, Texts
from tests.lib.journals import HEAD

PAGE, SECTOR = 4096, 512
# The bytes of a sector at which it is torn.
SPLITS = (1, 40, 256, 511)


@dataclass(frozen=True)
class Kind:
    """A kind of states, and the assumption on the disk that a crash breaks if it leaves one."""

    name: str
    assumption: str = ""

    def must_resume(self) -> bool:
        """Whether a start must resume such a file: a crash leaves it even if the disk is sound."""
        return not self.assumption


PREFIX = Kind("prefixes of the unsynced bytes")
CUT = Kind("lengths while a torn tail is cut off")
ZEROS = Kind(
    "lengths without all their data, zeros in its place",
    "the length reaches the disk after the data",
)
PAGES = Kind(
    "unsynced pages present or absent, the last synced page old or new",
    "pages reach the disk in order",
)
STALE = Kind(
    "absent pages with bytes of another journal of this set-up",
    "a new page reads as zeros without its data",
)
TORN = Kind(
    "torn sectors, with one part old and one part new", "a sector is written whole or not at all"
)
LOST = Kind(
    "synced sectors and pages lost when written again",
    "writing a sector again keeps its synced bytes",
)
UNKEPT = Kind("files without what was synced last", "what a sync reports as synced is on the disk")
CUT_PAGES = Kind(
    "torn tails with zeros from where they are cut off", "a file is cut off at one moment"
)
KINDS = (PREFIX, CUT, ZEROS, PAGES, STALE, TORN, CUT_PAGES, LOST, UNKEPT)


@dataclass(frozen=True)
class State:
    """A file after a power loss.

    It must have its head if `has_head`, and its first `least` requests.
    """

    kind: Kind
    file: bytes
    least: int
    has_head: bool
    moment: Moment


def units(begin: int, end: int, unit: int) -> range:
    """The starts of the pages or sectors that have these bytes."""
    return range(begin // unit * unit, end, unit)


def with_filler(file: bytes, begin: int, end: int, filler: bytes = b"") -> bytes:
    """A file in which the bytes of a range are those of a filler, or zeros if it is too short."""
    end = min(end, len(file))
    if begin >= end:
        return file
    return file[:begin] + filler[begin:end].ljust(end - begin, b"\0") + file[end:]


def sizes_of(moment: Moment) -> list[int]:
    """The lengths that the file can have: after each write, and at the end of each page."""
    pages = units(len(moment.synced), len(moment.written), PAGE)
    return sorted({*moment.sizes, *(page for page in pages if page > len(moment.synced))})


def prefixes(moment: Moment) -> Iterator[bytes]:
    """Yields the file at each length from the synced bytes on."""
    for length in range(len(moment.synced), len(moment.written) + 1):
        yield moment.written[:length]


def lengths_without_data(moment: Moment) -> Iterator[bytes]:
    """Yields files with their new length, in which the last written bytes are zeros."""
    synced = len(moment.synced)
    for size in sizes_of(moment):
        for place in units(synced, size, SECTOR):
            for begin in (place - 1, place, place + 1):
                yield with_filler(moment.written[:size], max(begin, synced), size)


def pages(moment: Moment, filler: bytes = b"") -> Iterator[bytes]:
    """Yields files in which each unsynced page is present or absent.

    An absent page has a filler's bytes or zeros.
    """
    synced = len(moment.synced)
    for size in sizes_of(moment):
        places = units(synced, size, PAGE)
        for present in product((True, False), repeat=len(places)):
            file = moment.written[:size]
            for place, is_there in zip(places, present):
                if not is_there:
                    old = filler if place >= synced else b""
                    file = with_filler(file, max(place, synced), place + PAGE, old)
            yield file


def torn_sectors(moment: Moment) -> Iterator[bytes]:
    """Yields files in which one part of an unsynced sector is written, and the other is not."""
    synced = len(moment.synced)
    for size in sizes_of(moment):
        for place, split, rest in product(units(synced, size, SECTOR), SPLITS, (True, False)):
            file = (
                moment.written[:size]
                if rest
                else with_filler(moment.written[:size], place + SECTOR, size)
            )
            yield with_filler(file, max(place + split, synced), place + SECTOR)
            yield with_filler(file, max(place, synced), place + split)


def lost_units(moment: Moment) -> Iterator[tuple[int, bytes]]:
    """Yields files with a lost sector or page, of zeros or ones, and where it begins."""
    ones = b"\xff" * len(moment.written)
    for unit in (SECTOR, PAGE):
        begin = len(moment.synced) // unit * unit
        if begin < len(moment.synced):
            for size, old in product((len(moment.synced), *sizes_of(moment)), (b"", ones)):
                yield begin, with_filler(moment.written[:size], begin, begin + unit, old)


def unkept_syncs(moment: Moment, earlier: list[Moment]) -> Iterator[tuple[int, bytes]]:
    """Yields files with only the synced bytes of an earlier moment, and how many these are."""
    for kept in {len(one.synced) for one in earlier if moment.synced.startswith(one.synced)}:
        yield kept, moment.written[:kept]
        yield kept, with_filler(moment.written, kept, len(moment.synced))


def cut_lengths(moment: Moment, cut: int) -> Iterator[bytes]:
    """Yields the file at each length from the cut to its old length."""
    for length in range(cut, len(moment.written) + 1):
        yield moment.written[:length]


def cut_pages(moment: Moment, cut: int) -> Iterator[bytes]:
    """Yields files of the old length that are zeros from the cut to the end of its page.

    Each further page is unchanged or zeros.
    """
    places = units(cut, len(moment.written), PAGE)[1:]
    for present in product((True, False), repeat=len(places)):
        file = with_filler(moment.written, cut, cut // PAGE * PAGE + PAGE)
        for place, is_there in zip(places, present):
            if not is_there:
                file = with_filler(file, place, place + PAGE)
        yield file


def states_of(moments: list[Moment], texts: Texts, filler: bytes) -> Iterator[State]:
    """Yields all states, each once. The filler is what was on the disk at an absent page."""
    for number, moment in enumerate(moments):
        if moment.cut is None:
            yield from states_of_writes(moment, moments[:number], texts, filler)
            continue
        for kind, files in (
            (CUT, cut_lengths(moment, moment.cut)),
            (CUT_PAGES, cut_pages(moment, moment.cut)),
        ):
            yield from once(State(kind, file, moment.least, True, moment) for file in files)


def states_of_writes(
    moment: Moment, earlier: list[Moment], texts: Texts, filler: bytes
) -> Iterator[State]:
    """Yields the states of a moment in which the file is only written."""
    for kind, files in (
        (PREFIX, prefixes(moment)),
        (ZEROS, lengths_without_data(moment)),
        (PAGES, pages(moment)),
        (STALE, pages(moment, filler)),
        (TORN, torn_sectors(moment)),
    ):
        has_head = len(moment.synced) >= HEAD
        yield from once(State(kind, file, moment.least, has_head, moment) for file in files)
    for kind, lost in ((LOST, lost_units(moment)), (UNKEPT, unkept_syncs(moment, earlier))):
        yield from once(
            State(kind, file, min(moment.least, texts.within(kept)), kept >= HEAD, moment)
            for kept, file in lost
        )


def once(states: Iterable[State]) -> Iterator[State]:
    """Yields each of these states once."""
    seen = set()
    for state in states:
        if state.file not in seen:
            seen.add(state.file)
            yield state
