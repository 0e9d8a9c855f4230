"""Compares a bidder's receipts with the published journal.

RECEIPTS is the file that examples/bidder.py writes, or that the bidder's page downloads: the
commitment as the bidder saw it before round 1, then a receipt in each line. JOURNAL is the whole
published journal.

COPY is a commitment.json that this bidder did not make: one that you or a witness saved, or the
record's. Signatures are checked with its key. Without it, nobody but the bidder itself knows whose
key signed the receipts: the same person may have written key and receipts. This then says so, and
calls nothing proved.

The journal must have each sheet with a receipt in its round, as the receipt numbers it, and no
other sheet of this bidder. The file must say of each sheet that the bidder sent it. The bidder's
sheets are those under its token: the one that SETUP has, or TOKEN of the environment, or the token
of a sheet with a receipt.

It prints a line for each fault and a last line, and changes nothing. The status is 0 only if there
is no fault.
"""
import argparse
import os
import pathlib
import sys

from auction import mock
from auction.command import Command
from auction.formats.receipts import File, ReceiptsFault, digest_of, faults, read_kept
from auction.formats.signatures import SignatureFault
from auction.formats.strict import escaped
from auction.formats.ties import Commitment, TiesFault
from auction.recount.formats import Refused, setup_in


def arguments(parser: argparse.ArgumentParser) -> None:
    parser.add_argument("receipts", metavar="RECEIPTS", type=pathlib.Path)
    parser.add_argument("journal", metavar="JOURNAL", type=pathlib.Path)
    parser.add_argument(
        "--commitment", metavar="COPY", type=pathlib.Path, help="a copy of commitment.json"
    )
    parser.add_argument("--setup", metavar="SETUP", type=pathlib.Path, help="the set-up document")


def token_of(file: File, setup: pathlib.Path | None, commitment: Commitment) -> str:
    """The bidder's token, if it is known. A set-up must be the committed one."""
    if setup is None:
        return os.environ.get("TOKEN", "").strip()
    document = setup.read_bytes()
    if digest_of(document) != commitment.auction:
        raise ReceiptsFault(
            f"{setup} is another set-up than the committed one, so its tokens prove nothing"
        )
    for bidder in setup_in(document).bidders:
        if bidder.name == file.name:
            return bidder.token
    raise ReceiptsFault(f"the set-up has no bidder {file.name}")


def say(words: str) -> None:
    print(escaped(words))


def say_unknown(path: pathlib.Path) -> None:
    """Says what cannot be known without a copy of the commitment."""
    say(
        f"unknown whose key signed: {path.name} names it itself, and who writes the file can make "
        "a key. Give --commitment, a commitment.json that this bidder did not make"
    )


def run(given: argparse.Namespace) -> int:
    try:
        file = read_kept(given.receipts)
        copy = given.commitment and Commitment.read(given.commitment)
        token = token_of(file, given.setup, copy or file.commitment)
        found = faults(file, given.journal.read_bytes(), token, copy)
    except (OSError, ReceiptsFault, Refused, SignatureFault, TiesFault) as fault:
        sys.exit(escaped(f"FAILED {fault}"))
    if (copy or file.commitment).mock:
        say(mock.WORDS)
    for words in found:
        say(f"{'FAILED' if copy else 'unproved'} {words}")
    if not copy:
        say_unknown(given.receipts)
    count = f"{len(file.receipts)} receipt{'' if len(file.receipts) == 1 else 's'}"
    if found:
        sys.exit(f"NOT as in the journal: {count}, {len(found)} faults")
    if not file.receipts and not (file.name and token):
        sys.exit(
            "nothing is known: the file has no receipt. If it names its bidder, --setup or TOKEN "
            "show whether the journal has a sheet in this name"
        )
    whose = "the committed key" if copy else "the key in the file"
    of_whom = f" of {file.name}" if file.name else ""
    say(f"as in the journal: {count}{of_whom}, each signed by {whose}")
    return 0


COMMAND = Command.of("check-receipts", __doc__, arguments, run)
