"""Recounts an auction, and prints what `clock_auction audit` prints.

SETUP is its set-up document, and JOURNAL its journal.

It shares nothing with the server: its author wrote it from docs/rules.md and docs/formats.md. If
its output is the program's, two readings of the rules have led to the same auction.

It judges every sheet and every closing in the journal again. A fault is printed as the program
prints it, as one line `fault: WORDS` on standard error, and the exit status is then 1.

With --table, it prints one table of a record as CSV instead, also during the auction. The tables
are those of docs/formats.md.
"""
import argparse
import sys

from auction.command import Command
from auction.formats import tables
from auction.recount.formats import Refused
from auction.recount.rules import recounted, report


def arguments(parser: argparse.ArgumentParser) -> None:
    parser.add_argument("setup", metavar="SETUP")
    parser.add_argument("journal", metavar="JOURNAL")
    names = [name.removesuffix(".csv") for name in tables.TABLES]
    parser.add_argument("--table", choices=names, help="print this table as CSV")


def bytes_of(path: str, fault: str) -> bytes:
    """The content of a file. Refuses with a fault if it cannot be read."""
    try:
        with open(path, "rb") as file:
            return file.read()
    except OSError:
        raise Refused(fault) from None


def run(given: argparse.Namespace) -> int:
    try:
        document, journal = bytes_of(given.setup, "file"), bytes_of(given.journal, "journal")
        counted = recounted(document, journal)
    except Refused as fault:
        sys.exit(f"fault: {fault}")
    if given.table:
        columns, rows = tables.TABLES[f"{given.table}.csv"]
        sys.stdout.write(tables.table(columns, rows(tables.auction_in(document, journal, counted))))
    else:
        sys.stdout.writelines(line + "\n" for line in report(counted))
    return 0


COMMAND = Command.of("recount", __doc__, arguments, run)
