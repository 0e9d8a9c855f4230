"""The documents that are typed, and the auctions that they play."""
import re

from tests.docs.shell import Bids
from tests.lib.paths import TOP

Sheets = dict[str, Bids]

# The auction of docs/bidders.md and docs/deployment.md: the sheets of two rounds.
ROUNDS: list[Sheets] = [
    {"X": [(1, 2, 100)], "Y": [(0, 2, 100)], "Z": [(1, 1, 100)]},
    {"X": [(0, 1, 104), (1, 1, 106)], "Y": [(0, 1, 102)], "Z": [(1, 1, 110)]},
]
# The auction of docs/operators.md: X's sheet of round 1, which docs/auditors.md names, those of Y
# and Z, and those of round 2, which its card closes.
FIRST: Sheets = {"X": [(0, 2, 100)]}
MACHINE: list[Sheets] = [
    {"Y": [(0, 1, 100)], "Z": [(1, 1, 100)]},
    {"X": [(0, 1, 106)], "Y": [(0, 1, 110)], "Z": [(1, 1, 110)]},
]
# The auction of docs/card-bidder.md, in examples/activity_limit.json. After round 1 X must have 2
# blocks of product 0, and product 0 excess demand.
CARD_ROUND: Sheets = {"X": [(0, 2, 100), (1, 2, 100)], "Z": [(0, 4, 100)]}


def text_of(name: str) -> str:
    """A document of docs/."""
    return (TOP / "docs" / name).read_text()


def sections_of(name: str, mark: str = "##") -> dict[str, str]:
    """The text of each section of a document, by its heading of the level of `mark`."""
    parts = re.split(rf"(?m)^{mark} (.*)\n", text_of(name))
    return dict(zip(parts[1::2], parts[2::2]))
