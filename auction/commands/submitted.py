"""Lists what was submitted in a bidder's name: when, and by whom.

JOURNAL is the server's journal, also while the server runs, or the published one. Give the list to
this bidder only, while the auction runs.

It prints a table as CSV, with a line for each accepted sheet of the bidder, in the journal's order.
`taken` is in UTC, and empty if the sheet did not come through nginx. `by` is the person whose token
it had, and empty for the bidder's own token. The sheet that counts is the last one of its round.
`body` is the SHA-256 digest of what was sent, as in the receipt.
"""
import argparse
import csv
import pathlib
import sys

from auction.command import Command
from auction.formats.journal import JournalFault
from auction.formats.receipts import Receipt
from auction.formats.setup import Setup
from auction.receipts import Sheets

COLUMNS = ("round", "sheet", "taken", "by", "counts", "body")


def arguments(parser: argparse.ArgumentParser) -> None:
    parser.add_argument("setup", metavar="SETUP", type=pathlib.Path)
    parser.add_argument("journal", metavar="JOURNAL", type=pathlib.Path)
    parser.add_argument("bidder", metavar="BIDDER")


def rows_of(own: list[Receipt]) -> list[tuple[object, ...]]:
    """A row for each sheet of one bidder."""
    last = {one.round: one.sheet for one in own}
    return [
        (
            *(one.round, one.sheet, one.taken, one.by),
            "yes" if one.sheet == last[one.round] else "no",
            one.body,
        )
        for one in own
    ]


def run(given: argparse.Namespace) -> int:
    try:
        sheets = Sheets(given.journal, Setup.read(given.setup))
        if given.bidder not in sheets.setup.bidders:
            sys.exit(f"auction submitted: {given.setup} has no bidder {given.bidder}")
        sheets.read_on()
    except (JournalFault, OSError, ValueError) as fault:
        sys.exit(f"auction submitted: {fault}")
    own = [one for one in sheets.fresh if one.bidder == given.bidder]
    csv.writer(sys.stdout, lineterminator="\n").writerows([COLUMNS, *rows_of(own)])
    return 0


COMMAND = Command.of("submitted", __doc__, arguments, run)
