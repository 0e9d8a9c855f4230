"""Refused sheets after a take-over: their numbers continue where the first machine's end."""
import calendar
import json
import os
import time
from collections.abc import Iterator
from pathlib import Path

from auction.formats.receipts import KeptRefusal, Refusal
from auction.formats.ties import Commitment

LOG = "log/refused.log"
FORM = "%Y-%m-%dT%H:%M:%SZ"


def signed_in(folder: Path) -> Iterator[Refusal]:
    """The refusals of a copy that the committed key has signed."""
    commitment = Commitment.read(folder / "public/commitment.json")
    for path in (folder / "receipts").rglob("refused.json"):
        try:
            kept = KeptRefusal.of(json.loads(path.read_bytes()))
        except ValueError:
            continue
        if not kept.faults(commitment):
            yield kept.refusal


def line_of(refusal: Refusal) -> str:
    """A refusal as a line of nginx's log, with its number."""
    second = calendar.timegm(time.strptime(refusal.time, FORM))
    whose = {"bidder": refusal.bidder, "by": refusal.by, "second": str(second)}
    return json.dumps({**whose, "number": refusal.number}) + "\n"


def continue_numbers(folder: Path) -> None:
    """Writes the last signed refusal of each bidder to this machine's log of refused sheets.

    `auction receipts` counts on from there. The log may end with a part of a line.
    """
    last = {one.bidder: one for one in sorted(signed_in(folder), key=lambda one: one.number)}
    lines = "".join(line_of(one) for one in last.values())
    with open(folder / LOG, "a", encoding="ascii") as file:
        file.write(f"\n{lines}" if lines else "")
        file.flush()
        os.fsync(file.fileno())
