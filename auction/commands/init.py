"""Makes an auction's folder, with all that it needs before it opens.

FOLDER must not be there, or be empty. It gets the set-up, the token files, nginx's configuration
and pages, the commitment with its secrets, a certificate, and the conductor's settings. It is made
whole, or not at all.

Give the set-up as one file with --setup. Or give --products and --bidders: two spreadsheets as CSV
files, whose first line names the columns. Products have name, units, supply, and opening, and may
have cap, granule, and title. Bidders have name and eligibility, and may have title. Then tokens are
drawn, and FOLDER/letters gets a letter for each bidder.

With --mock, this is a mock auction: the same products and bidders with tokens of its own, which
begin with MOCK. Each page, announcement, and receipt says so.

Without --journal, the journal is that of the package's systemd unit if FOLDER is /srv/auction, and
else auction.journal in FOLDER. Only root and nginx's workers can enter FOLDER.

Without --certificate and --key, a certificate for a trial is made, which no browser trusts. With
--no-ties, closings have no tie-breaking numbers.
"""
import argparse
import json
import pathlib
import sys

from auction import folder as auction_folder
from auction import letters, mock
from auction.command import Command
from auction.conductor import commitment
from auction.folder import Certificate, FolderFault, Plan
from auction.ready.maps import TokensFault
from auction.recount.formats import Refused, setup_in
from auction.spreadsheets import Names, setup_of

FAULTS = (*commitment.FAULTS, FolderFault, TokensFault)


def arguments(parser: argparse.ArgumentParser) -> None:
    parser.add_argument("folder", metavar="FOLDER", type=pathlib.Path)
    parser.add_argument("--setup", metavar="FILE", type=pathlib.Path, help="the set-up document")
    parser.add_argument("--products", metavar="FILE", type=pathlib.Path, help="a CSV file")
    parser.add_argument("--bidders", metavar="FILE", type=pathlib.Path, help="a CSV file")
    parser.add_argument("--mock", action="store_true", help="make a mock auction of the set-up")
    parser.add_argument("--title", default="Clock auction", help="what people call the auction")
    parser.add_argument("--requirement", metavar="PERCENT", type=int, default=80)
    parser.add_argument("--limit", metavar="PERCENT", type=int, help="the activity limit")
    parser.add_argument("--host", metavar="NAME", default="localhost")
    parser.add_argument("--port", type=int, default=auction_folder.USUAL_PORT)
    parser.add_argument("--journal", metavar="FILE", help="the server's journal")
    parser.add_argument("--certificate", metavar="FILE", type=pathlib.Path)
    parser.add_argument("--key", metavar="FILE", type=pathlib.Path)
    parser.add_argument("--help-desk", metavar="WORDS", default="(your operator)")
    parser.add_argument("--user", metavar="NAME", default="auction-nginx", help="nginx's workers")
    parser.add_argument("--no-ties", action="store_true")


def setup_in_words(given: argparse.Namespace) -> tuple[bytes, Names | None]:
    """The set-up document, and long names if it comes from spreadsheets."""
    document, names = given_setup(given)
    if given.mock:
        return mock.mock_of(document), names and names.of_mock()
    if mock.kind_of_value(json.loads(document)) is not mock.Kind.REAL:
        words = f"the set-up has tokens of a mock auction, which begin with {mock.PREFIX}"
        raise FolderFault(f"{words}: name the real set-up, or add --mock")
    return document, names


def given_setup(given: argparse.Namespace) -> tuple[bytes, Names | None]:
    """The set-up that the arguments name, as it is."""
    if given.setup and not (given.products or given.bidders):
        document: bytes = given.setup.read_bytes()
        try:
            setup_in(document)
        except Refused as fault:
            raise FolderFault(
                f"{given.setup} is refused: {fault}. Run: auction explain setup {given.setup}"
            ) from None
        return document, None
    if given.products and given.bidders and not given.setup:
        return setup_of(given.products, given.bidders, given.title, given.requirement, given.limit)
    raise FolderFault("give --setup, or --products and --bidders")


def plan_of(given: argparse.Namespace, document: bytes, names: Names | None) -> Plan:
    """What the folder is made from."""
    if bool(given.certificate) != bool(given.key):
        raise FolderFault("give both --certificate and --key, or neither")
    certificate = Certificate(given.certificate, given.key) if given.key else None
    return Plan(
        document,
        given.host,
        given.port,
        given.journal or auction_folder.usual_journal(given.folder),
        not given.no_ties,
        certificate,
        names.text() if names else None,
        given.user,
    )


def write_letters(given: argparse.Namespace, document: bytes, names: Names | None) -> None:
    """Writes a letter for each bidder whose token was drawn here, for the operator only."""
    port = "" if given.port == 443 else f":{given.port}"
    address = f"https://{given.host}{port}/"
    place = given.folder / "letters"
    place.mkdir(0o700)
    title = names.title if names else mock.MARK * given.mock + given.title
    long = names.bidders if names else {}
    for letter in letters.letters_of(document, title, address, given.help_desk, long):
        auction_folder.write_private(place / f"{letter.bidder}.txt", letter.text.encode())


def run(given: argparse.Namespace) -> int:
    try:
        document, names = setup_in_words(given)
        auction_folder.make(given.folder, plan_of(given, document, names))
        if names or given.mock:
            write_letters(given, document, names)
    except FAULTS as fault:
        sys.exit(f"auction init: {fault}")
    print(f"{given.folder} is made. Next: start server, nginx, and conductor, and run")
    print(f"auction ready {given.folder} --host {given.host}")
    return 0


COMMAND = Command.of("init", __doc__, arguments, run)
