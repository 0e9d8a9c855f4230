"""What `auction explain` finds in a document without the program, and what the program says."""
import pathlib
import re
from typing import NamedTuple

from auction.explain.faults import Found, found_in, in_play, line_of

# What only the played auction refuses.
IN_PLAY = re.compile(r"fault: (refused |closing |closings_spent|price_limit)")


class Judged(NamedTuple):
    """A document, what was found in it, and the program's line, or nothing if it accepts it."""

    data: bytes
    found: Found
    line: str

    @property
    def agrees(self) -> bool:
        """Whether an error was found exactly if the program refuses, and each is in the text.

        What only the played auction refuses has no error of its own, but a place.
        """
        if IN_PLAY.match(self.line):
            return not self.found.faults and in_play(self.line) is not None
        places = [fault.place for fault in self.found.faults]
        is_inside = all(0 <= place <= len(self.found.text) for place in places)
        return bool(places) == bool(self.line) and is_inside


def judged(program: pathlib.Path, kind: str, data: bytes) -> Judged:
    """A document, judged twice."""
    line = line_of(program, kind, data)
    assert line is not None
    return Judged(data, found_in(kind, data), line)
