"""Gives persons of a bidder tokens of their own, and revokes them.

FOLDER is the auction's folder. Without an option, this lists all persons, and writes what nginx
reads of them again. A person has a name of letters, digits, - and _, such as alice. It is in the
access log, and in the receipt of each sheet that the person sends.

--add draws a token, and writes a letter to FOLDER/letters. From then on the bidder's own token is
refused, also if all its persons are revoked. --revoke takes a token back. To replace a lost token,
revoke it, and add the person again.

Changes take effect when nginx is reloaded. The server is not restarted. FOLDER has the persons in
persons.csv, and what nginx reads in bidders.map, persons.map, and by.map.
"""
import argparse
import json
import pathlib
import sys

from auction import persons
from auction.command import Command
from auction.conductor import disk
from auction.conductor.settings import Settings
from auction.persons import PersonsFault
from auction.ready.maps import Person, TokensFault


def arguments(parser: argparse.ArgumentParser) -> None:
    parser.add_argument("folder", metavar="FOLDER", type=pathlib.Path)
    change = parser.add_mutually_exclusive_group()
    change.add_argument("--add", nargs=2, metavar=("BIDDER", "PERSON"))
    change.add_argument("--revoke", nargs=2, metavar=("BIDDER", "PERSON"))


def say_all(found: list[Person]) -> None:
    """Prints each person, without tokens."""
    for person in found:
        print(f"{person.bidder} {person.name}{'' if person.token else ' (revoked)'}")


def run(given: argparse.Namespace) -> int:
    folder: pathlib.Path = given.folder
    try:
        setup = json.loads(Settings.read(folder).setup.read_text(encoding="utf-8"))
        with disk.locked(folder / "persons.lock"):
            before = after = persons.read(folder)
            if given.add:
                after = persons.added(setup, before, *given.add)
            if given.revoke:
                after = persons.revoked(before, *given.revoke)
            persons.store(folder, setup, before, after)
            if given.add:
                print(f"letter with the token: {persons.write_letter(folder, after[-1])}")
    except (OSError, PersonsFault, TokensFault) as fault:
        sys.exit(f"auction persons: {fault}")
    say_all(after)
    if given.add or given.revoke:
        print(f"now reload nginx: nginx -p {folder.absolute()} -c nginx.conf -s reload")
    return 0


COMMAND = Command.of("persons", __doc__, arguments, run)
