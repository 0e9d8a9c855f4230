"""Checks a published auction, and prints for each check whether it holds.

SETUP and JOURNAL are the auction's, byte for byte. PUBLISHED is a folder with what was published
during the auction, by the names under /public/: the commitment and all rounds. Best is what you
saved yourself during the auction. It may also be the record that `auction record` made, whose
files and index are then checked too.

Each RECEIPTS is a bidder's file of receipts. COPY is a commitment.json that someone saved before
round 1, and before a public draw. Without it, the one in PUBLISHED counts. Each SAVED is a copy of
notices.jsonl. One with other entries that the operator signed proves that there were two chains.

Each check prints one line, or one for each thing that is wrong: `ok`, `FAILED`, or `absent` if
there is nothing to check. The last line counts them. The status is 0 only if nothing failed.

It reads docs/rules.md and docs/formats.md as `auction recount` does, runs none of the auction's
programs, and changes nothing. docs/auditors.md says what each check proves, and what it does not.
"""
import argparse
import pathlib
from collections import Counter

from auction.command import Command
from auction.formats.notices import NAME
from auction.formats.strict import escaped
from auction.verify.case import Case
from auction.verify.findings import ABSENT, FAILED, OK, findings


def arguments(parser: argparse.ArgumentParser) -> None:
    parser.add_argument("setup", metavar="SETUP", type=pathlib.Path)
    parser.add_argument("journal", metavar="JOURNAL", type=pathlib.Path)
    parser.add_argument("published", metavar="PUBLISHED", type=pathlib.Path)
    parser.add_argument("receipts", metavar="RECEIPTS", type=pathlib.Path, nargs="*")
    parser.add_argument(
        "--commitment", metavar="COPY", type=pathlib.Path, help="a saved copy of commitment.json"
    )
    parser.add_argument(
        "--lots", metavar="COPY", type=pathlib.Path, help="a saved copy of lots.json"
    )
    parser.add_argument(
        "--notices",
        metavar="SAVED",
        type=pathlib.Path,
        action="append",
        default=[],
        help="a saved copy of notices.jsonl; may be given again",
    )


def lacking(case: Case) -> str:
    """Says loudly that an auction has no notices."""
    if (case.published / NAME).is_file():
        return ""
    return "; NO NOTICES: windows, increments, and announcements are not shown"


def run(given: argparse.Namespace) -> int:
    counts: Counter[str] = Counter()
    files = given.setup, given.journal, given.published, *given.receipts
    case = Case(*files, commitment=given.commitment, copies=given.notices, lots=given.lots)
    for found in findings(case):
        counts[found.result] += 1
        print(escaped(f"{found.result:6} {found.subject}: {found.words}"), flush=True)
    verdict = "NOT verified" if counts[FAILED] else "verified"
    failed = f"{counts[OK]} checks hold, {counts[FAILED]} failed"
    print(f"{verdict}: {failed}, {counts[ABSENT]} had nothing to check{lacking(case)}")
    return 1 if counts[FAILED] else 0


COMMAND = Command.of("verify", __doc__, arguments, run)
