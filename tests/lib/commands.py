"""The commands that read a document: examples of it, what they print, and how they refuse.

The tables are those of docs/formats.md.
"""
import json
import pathlib
import re
import subprocess
from typing import Any, NamedTuple

from tests.lib.paths import EXAMPLES
from tests.lib.replies import CODES

SECONDS = 60
NAME = r"[A-Za-z0-9_-]{1,32}"
CODE = "|".join(code for codes in CODES.values() for code in codes)
ROUND = rf"round \d+\n(?:{NAME} \d+ \d+ \d+ (?:\d+|-) (?:\d+|-)\n)+"

SETUP_FAULT = (
    r"setup_not_json|setup_shape|setup_version|setup_duplicate_name|setup_duplicate_token"
    r"|setup_range (?:requirement|limit|operator|products|bidders"
    r"|(?:name|units|supply|cap|opening|granule|bidder_name|token|eligibility) \d+)"
)
OPENING_FAULT = (
    rf"{SETUP_FAULT}|not_json|shape|demand \d+ \d+|activity \d+|increment|price_limit \d+"
)
REPLAY_FAULT = (
    rf"{SETUP_FAULT}|not_json|shape|scripts|limits \d+ \d+"
    rf"|refused \d+ \d+ (?:{CODE})|closing \d+ (?:{CODE})|closings_spent"
)


class Ended(NamedTuple):
    """How a run ended: its status, its output, and its error."""

    status: int
    output: bytes
    error: bytes


class Command(NamedTuple):
    """A command: its word, the kind and the examples of its document, and what it may print."""

    word: str
    kind: str
    examples: list[str]
    lines: str
    fault: str

    def goods(self) -> list[bytes]:
        """The examples of its document."""
        return [(EXAMPLES / f"{name}.json").read_bytes() for name in self.examples]

    def values(self) -> list[Any]:
        """The values of the examples."""
        return [json.loads(good) for good in self.goods()]

    def answer(self, ended: Ended) -> str | None:
        """The word for how a run ended, or None if no run may end so."""
        if ended.status == 0 and not ended.error:
            return (
                "lines" if re.fullmatch(self.lines, ended.output.decode(errors="replace")) else None
            )
        fault = re.fullmatch(rf"fault: ({self.fault})\n", ended.error.decode(errors="replace"))
        if ended.status == 1 and not ended.output and fault:
            return re.sub(r" \d+", "", fault[1])
        return None


COMMANDS = [
    Command(
        "prices",
        "setup",
        ["one_product", "granules_and_increments", "price_edges", "activity_limit", "two_products"],
        rf"(?:{NAME} \d+ (?:\d+|-)\n)+",
        SETUP_FAULT,
    ),
    Command("opening", "opening", ["opening"], ROUND, OPENING_FAULT),
    Command(
        "replay",
        "replay",
        ["rehearsal", "rehearsal_version_2", "tutorial"],
        rf"(?:{ROUND})+(?:won {NAME}(?: \d+)+\n)+",
        REPLAY_FAULT,
    ),
]


def run(program: pathlib.Path, word: str, document: bytes) -> Ended:
    """Runs a command on a document."""
    done = subprocess.run([program, word], input=document, capture_output=True, timeout=SECONDS)
    return Ended(done.returncode, done.stdout, done.stderr)
