"""Commits to the tie-breaking numbers and the key of receipts before round 1.

FOLDER is the folder of `auction close` or of the conductor. It gets chain.json, with the secret of
the seeds, and receipts.pem, with the secret key, both for their owner only. PUBLIC is the folder
`public` of nginx. It gets commitment.json, for everyone (docs/formats.md). What is there already
stays, so call it again after a crash.

If the journal has a closing, nothing is made: the chain and the key of that auction are lost, or on
another machine. JOURNAL is that of FOLDER/../conductor.json, or FOLDER/../auction.journal.

With --no-ties, closings have no tie-breaking numbers. With --draw, called once more after
commitment.json is published and before the first window opens, the numbers also depend on these
words: the result of a public draw that was announced before. So nobody could have made many chains
and chosen one. The words are up to 200 letters of printable ASCII. They are published in draw.json,
and commitment.json stays as it is.

It prints the commitment, or the draw. Give it to bidders, and keep FOLDER secret: anyone who has
the seeds knows all tie-breaking numbers.
"""
import argparse
import os
import pathlib
import sys

from auction.command import Command
from auction.conductor import commitment
from auction.conductor.settings import Settings, SettingsFault
from auction.formats import strict
from auction.formats.setup import Setup


def arguments(parser: argparse.ArgumentParser) -> None:
    parser.add_argument("setup", metavar="SETUP", type=pathlib.Path)
    parser.add_argument("folder", metavar="FOLDER", type=pathlib.Path)
    parser.add_argument("public", metavar="PUBLIC", type=pathlib.Path)
    parser.add_argument("--no-ties", action="store_true", help="close without tie-breaking numbers")
    parser.add_argument("--draw", metavar="WORDS", help="the result of a public draw")
    parser.add_argument("--journal", metavar="JOURNAL", type=pathlib.Path)


def usual_journal(folder: pathlib.Path) -> pathlib.Path:
    """The journal of an auction's folder, by the conductor's settings if there are any."""
    try:
        return Settings.read(folder).journal
    except SettingsFault:
        return folder / "auction.journal"


def run(given: argparse.Namespace) -> int:
    os.umask(0o022)
    if given.draw == "":
        sys.exit("auction commit: a draw has words")
    try:
        journal = given.journal or usual_journal(given.folder.absolute().parent)
        places = commitment.Places(given.folder, given.public, journal)
        made = commitment.make(places, Setup.read(given.setup), not given.no_ties, given.draw)
    except commitment.FAULTS as fault:
        sys.exit(f"auction commit: {fault}")
    words = places.draw.read_text() if given.draw else strict.published(made.value()).decode()
    print(words, end="")
    return 0


COMMAND = Command.of("commit", __doc__, arguments, run)
