"""Persons of a bidder: each has a token of its own, in whose place nginx hands on the bidder's."""
import csv
import io
import re
import secrets
from pathlib import Path
from typing import Any

from auction import mock
from auction.conductor import disk
from auction.ready import maps
from auction.ready.maps import Person

COLUMNS = ("bidder", "person", "token")
FILE, LETTERS = "persons.csv", "letters"
NAME = re.compile("[A-Za-z0-9_-]{1,32}")
TOKEN_BYTES = 16  # of entropy, written as 32 letters

LETTER = """Bidder:  {bidder}
Person:  {name}
Token:   {token}

Open the address in your bidder's letter in a browser, and enter this token. It is
yours only: each sheet and its receipt name you.

Keep this letter secret. If it is lost, call the help desk at once.
"""


class PersonsFault(ValueError):
    """Why a person is not added or revoked, or a file of persons is refused."""


def read(folder: Path) -> list[Person]:
    """The persons of a folder. A revoked one has no token."""
    path = folder / FILE
    if not path.exists():
        return []
    first, *rows = list(csv.reader(io.StringIO(path.read_text(encoding="utf-8")))) or [[]]
    if tuple(first) != COLUMNS or any(len(row) != len(COLUMNS) for row in rows):
        raise PersonsFault(f"{path}: a line has not the columns {', '.join(COLUMNS)}")
    return [Person(*row) for row in rows]


def text_of(persons: list[Person]) -> str:
    """The text of the file with these persons."""
    lines = io.StringIO()
    csv.writer(lines, lineterminator="\n").writerows([COLUMNS, *persons])
    return lines.getvalue()


def added(setup: dict[str, Any], persons: list[Person], bidder: str, name: str) -> list[Person]:
    """The persons, with a new token for one of them."""
    bidders = [one["name"] for one in setup["bidders"]]
    if bidder not in bidders:
        raise PersonsFault(f"the set-up has no bidder {bidder}")
    if not NAME.fullmatch(name):
        raise PersonsFault("a person's name has 1 to 32 letters, digits, - or _")
    if name.lower() in (one.lower() for one in bidders):
        raise PersonsFault(f"{name} is the name of a bidder: choose another one")
    for one in persons:
        if one.bidder == bidder and one.name.lower() == name.lower() and one.token:
            raise PersonsFault(f"{one.name} of {bidder} has a token: revoke it first")
    others = [one for one in persons if (one.bidder, one.name.lower()) != (bidder, name.lower())]
    prefix = mock.PREFIX if mock.is_mock_token(setup["operator"]) else ""
    return [*others, Person(bidder, name, prefix + secrets.token_hex(TOKEN_BYTES))]


def revoked(persons: list[Person], bidder: str, name: str) -> list[Person]:
    """The persons, one of them without a token. Its bidder's own token stays refused."""
    if not any(one[:2] == (bidder, name) and one.token for one in persons):
        raise PersonsFault(f"{bidder} has no person {name} with a token")
    return [one._replace(token="") if one[:2] == (bidder, name) else one for one in persons]


def store(folder: Path, setup: dict[str, Any], before: list[Person], after: list[Person]) -> None:
    """Writes the file and what nginx reads of it.

    First nobody has access whose token is new or was revoked. So if this is killed, no token is
    taken that the other files do not know.
    """
    known = [one if one in before else one._replace(token="") for one in after]
    files = {
        "bidders.map": maps.bidders_map(setup, known),
        FILE: text_of(after),
        "persons.map": maps.persons_map(setup, after),
        "by.map": maps.by_map(after),
    }
    for name, text in files.items():
        disk.store(folder / name, text)
    disk.store(folder / "bidders.map", maps.bidders_map(setup, after))


def write_letter(folder: Path, person: Person) -> Path:
    """Writes a letter for a new person. Returns its path."""
    disk.make_folder(folder / LETTERS, 0o700)
    path = folder / LETTERS / f"{person.bidder}.{person.name}.txt"
    kind = f"{mock.WORDS}\n\n" if mock.is_mock_token(person.token) else ""
    disk.store(path, kind + LETTER.format(**person._asdict()))
    return path
