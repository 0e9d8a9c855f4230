"""The gate: nginx looks for files that have the name of the current ten seconds.

A file TEN lets sheets through the outer door, `late-TEN` through the inner one, and `curtain-TEN`
withholds all other pages. So a window, its drain, and its curtain end by themselves, even if no
conductor runs.
"""
from collections.abc import Iterable
from pathlib import Path

from . import disk
from .observed import FOREVER, TEN
from .observed import Gate as Times

LATE, CURTAIN = "late-", "curtain-"

LOST = -1  # when a gate opens of which a file is missing


def tens_of(names: set[str], front: str) -> set[int]:
    """The ten seconds of the files whose names begin so."""
    rests = (name.removeprefix(front) for name in names if name.startswith(front))
    return {int(rest) for rest in rests if rest.isdigit()}


def end_of(tens: set[int]) -> int:
    """The end of the last ten seconds of these, or 0."""
    return max((ten + 1 for ten in tens), default=0) * TEN


def tens(begin: float, end: int) -> Iterable[int]:
    """The ten seconds from a time until a whole ten seconds."""
    return range(int(begin) // TEN, end // TEN)


class Gate:
    """The folder that nginx looks into."""

    def __init__(self, folder: Path) -> None:
        self.folder = folder

    def times(self, opens: int, now: float = FOREVER) -> Times:
        """What the files say, with the opening that they do not say if a door is open.

        If one is missing from now on, the opening is LOST, which no gate is to have.
        """
        names, begin = self.names(), max(now, opens)
        doors, late, drawn = (tens_of(names, front) for front in ("", LATE, CURTAIN))
        takes, shuts = end_of(doors), end_of(late)
        draws, lifts = min(drawn, default=0) * TEN, end_of(drawn)
        lost = set(tens(draws, lifts)) - drawn
        if "open" in names:
            takes = shuts = FOREVER
        else:
            lost |= set(tens(begin, takes)) - doors | set(tens(begin, shuts)) - late
        first = opens if takes or shuts else 0
        return Times(LOST if lost else first, takes, shuts, draws, lifts)

    def takes_sheets(self, now: float) -> bool:
        """Whether the outer door takes sheets now."""
        return not self.names().isdisjoint({"open", str(int(now) // TEN)})

    def write(self, times: Times, now: float) -> None:
        """Lets the files say these times. Those of the doors are made from now on only."""
        doors = {str(ten) for ten in tens(max(now, times.opens), times.takes)}
        late = {f"{LATE}{ten}" for ten in tens(max(now, times.opens), times.late)}
        curtain = {f"{CURTAIN}{ten}" for ten in tens(times.draws, times.lifts)}
        self.become(doors | late | curtain)

    def forget(self, now: float) -> None:
        """Removes the doors' files of times that are over: the clock may go back."""
        over = {
            name
            for name in self.names()
            if name != "open"
            and not name.startswith(CURTAIN)
            and int(name.removeprefix(LATE)) < int(now) // TEN
        }
        if over:
            self.become(self.names() - over)

    def shut(self, now: float) -> None:
        """No sheet is taken. A curtain that has begun stays."""
        times = self.times(0)
        drawn = Times(draws=times.draws, lifts=times.lifts)
        self.write(drawn if times.draws <= now else Times(), now)

    def names(self) -> set[str]:
        return {file.name for file in self.folder.iterdir()} if self.folder.is_dir() else set()

    def become(self, names: set[str]) -> None:
        """The folder has files of these names, and no other.

        A kill in the middle leaves no open door without what must follow it: to shut, the inner
        door's files go first; to open, they come after the curtain's, and the outer door's come
        last.
        """
        disk.make_folder(self.folder, 0o755)
        there = self.names()
        for name in sorted(there - names, key=lambda name: (not name.startswith(LATE), name)):
            disk.unlink(self.folder / name)
        for name in sorted(
            names - there, key=lambda name: (name.isdigit(), not name.startswith(CURTAIN), name)
        ):
            disk.touch(self.folder / name)
        if there != names:
            disk.sync_folder(self.folder)
