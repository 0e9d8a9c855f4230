"""What a fault line of the server means for the operator, and what to do."""
import re
from typing import NamedTuple

GUIDE = "docs/operators.md"
LINE = re.compile(r"^fault: ([a-z]+(?:_[a-z]+)*)(?: .*)?$|^(cut) [0-9]+ bytes at [0-9]+$", re.M)


class Ending(NamedTuple):
    """Why the server ended, and what to do then."""

    cause: str
    action: str


SET_UP = Ending("the set-up cannot be read, or is none", "auction explain setup FILE")
DISK = (
    f"free space, or fix the disk, rewrite the file ({GUIDE}, Rewrite the journal), and start again"
)
COPY = f"{GUIDE}, A damaged journal"
ENDINGS = {
    "file": Ending("a file cannot be opened", "name the right file, which the server may read"),
    "input": SET_UP,
    "long_input": SET_UP,
    "bind": Ending(
        "the port is taken, or not allowed", "`ss -ltnp` shows which program uses it: stop that"
    ),
    "output": Ending("a line could not be printed", "check where standard output goes"),
    "memory": Ending(
        "out of memory: less was free, or LimitAS is lower, than a closing or a start needs",
        "start again, or raise LimitAS",
    ),
    "journal": Ending(
        "the journal cannot be opened, created, read, or synced, or is not a plain file; a request "
        "that could not be put on the disk got no reply",
        DISK,
    ),
    "journal_busy": Ending("another server has the journal", "stop that server, or let it run"),
    "journal_unknown": Ending("the file is not a journal", "name the right file"),
    "journal_setup": Ending(
        "the journal is of another set-up, if only by a space", "name the right files"
    ),
    "journal_differs": Ending(
        "the journal and its mirror differ: one is another auction's, or continued without the "
        "other",
        "find out which file is right, move the other away, and start again",
    ),
    "journal_damaged": Ending("from this byte on, the journal is damaged", f"use a copy ({COPY})"),
    "journal_refused": Ending(
        "someone edited the journal, or another version wrote it",
        "serve it with the version that wrote it",
    ),
    "accept": Ending("a connection could not be accepted", "start again"),
    "cut": Ending(
        "after a crash the journal ended with half a record; no one got a reply to it",
        f"none; without a crash, the disk damaged it: use a copy ({COPY})",
    ),
}


def ending_of(word: str) -> Ending | None:
    """The ending of a fault's first word."""
    return SET_UP if word.startswith("setup_") else ENDINGS.get(word)


def explained(text: str) -> list[str]:
    """The last fault in a text, with its cause and what to do. Nothing if it has none."""
    found = list(LINE.finditer(text))
    if not found:
        return []
    ending = ending_of(found[-1][1] or found[-1][2])
    if ending is None:
        return [f"{found[-1][0]}: see docs/formats.md, Fault lines of the program"]
    return [f"{found[-1][0]}: {ending.cause}", f"what to do: {ending.action}"]
