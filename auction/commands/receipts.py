"""Signs a receipt for each accepted sheet, and puts it where nginx gives it to its bidder only.

JOURNAL is the server's journal, which is read as it grows and never written. FOLDER has the secret
key receipts.pem, which `auction commit` made before round 1. public/commitment.json next to FOLDER
must be of this set-up and key: a key signs for one auction only.

RECEIPTS is the folder `receipts` of nginx. It must be there, and nginx's workers must be its group:
install -d -m 2750 -g auction-nginx receipts. What is made in it is for its owner and this group
only.

Once a second it looks for sheets that are on the disk. All receipts of a look appear at the next
whole second, at the same moment: so they show nothing of how many sheets others sent.

A receipt is RECEIPTS/BIDDER/ROUND-K.json for the K-th sheet of the bidder in the round
(docs/formats.md). The same sheet and key always make the same receipt, so this may be killed at any
moment and started again. With --once it signs what the journal has, and ends. Otherwise it runs on
until it is stopped.

With --refused it also signs when a sheet was refused because no window was open. RECEIPTS has the
last of each bidder as BIDDER/refused.json.

If the journal cannot be read, it says so, and tries again. It ends if receipts.pem is no longer the
file that it read. Only one process at a time signs by this file.
"""
import argparse
import os
import pathlib
import sys

from auction.command import Command
from auction.conductor.chain import Chain
from auction.formats.setup import Setup
from auction.formats.signatures import public_of
from auction.formats.ties import Commitment
from auction.receipts import FAULTS, Key, OtherAuction, Sheets, Signer
from auction.receipts import run as publish_receipts


def arguments(parser: argparse.ArgumentParser) -> None:
    parser.add_argument("setup", metavar="SETUP", type=pathlib.Path)
    parser.add_argument("journal", metavar="JOURNAL", type=pathlib.Path)
    parser.add_argument("folder", metavar="FOLDER", type=pathlib.Path)
    parser.add_argument("receipts", metavar="RECEIPTS", type=pathlib.Path)
    parser.add_argument(
        "--refused", metavar="LOG", type=pathlib.Path, help="nginx's log of refused sheets"
    )
    parser.add_argument("--once", action="store_true", help="sign what the journal has, and end")


def say(line: str) -> None:
    print(line, flush=True)


def check_key(folder: pathlib.Path, setup: Setup, secret: bytes) -> None:
    """Refuses the key of another auction: it must be the committed one of this set-up.

    The unit hides the chain, so the commitment says which key it is. Without one next to the
    folder, the chain says which set-up the key is of.
    """
    path = folder.parent / "public/commitment.json"
    if not path.exists():
        Chain.read(folder / "chain.json", setup)
        return
    found = Commitment.read(path)
    if found.auction != setup.digest:
        raise ValueError(f"{folder / 'receipts.pem'} is of another set-up, as {path} says")
    if found.key != public_of(secret):
        raise ValueError(f"{folder / 'receipts.pem'} is not the key of {path}")


def run(given: argparse.Namespace) -> int:
    os.umask(0o027)
    try:
        if not given.receipts.is_dir():
            sys.exit(f"auction receipts: there is no folder {given.receipts}")
        setup = Setup.read(given.setup)
        sheets = Sheets(given.journal, setup)
        key = Key(given.folder / "receipts.pem")
        check_key(given.folder, setup, key.secret)
        signer = Signer(sheets, key.secret, given.receipts, given.refused)
        if given.once:
            signer.look()
            say(f"receipts {signer.show()}")
        else:
            publish_receipts(signer, say, key.check)
    except (*FAULTS, OtherAuction) as fault:
        sys.exit(f"auction receipts: {fault}")
    return 0


COMMAND = Command.of("receipts", __doc__, arguments, run)
