"""Makes the record of an auction that has ended: all that anyone needs to count it again.

PUBLISHED is the folder of what was published during the auction, such as the conductor's `public`.
FOLDER must not be there. It gets the set-up and the journal byte for byte, the published files by
their names, and tables of bids, results and prices as CSV. An index, SHA256SUMS, lists them.
docs/formats.md describes the files and their columns. The same files give the same record.

It is written next to its place, synced, and renamed: FOLDER is whole, or not there.

The set-up and the journal have all tokens in clear. So an auction that has not ended is refused. If
it was given up, stop the server, and add --not-ended. Only the owner of FOLDER can read it, until
you publish it.

The last line is the SHA-256 of the index, which identifies the record. `auction verify` checks a
record.
"""
import argparse
import hashlib
import os
import pathlib
import shutil
import sys

from auction.command import Command
from auction.conductor import disk
from auction.formats import notices, record
from auction.recount import rules as recount
from auction.recount.formats import Refused


class NoRecord(Exception):
    """Why no record is made."""


def arguments(parser: argparse.ArgumentParser) -> None:
    parser.add_argument("setup", metavar="SETUP", type=pathlib.Path)
    parser.add_argument("journal", metavar="JOURNAL", type=pathlib.Path)
    parser.add_argument("published", metavar="PUBLISHED", type=pathlib.Path)
    parser.add_argument("folder", metavar="FOLDER", type=pathlib.Path)
    parser.add_argument(
        "--not-ended", action="store_true", help="make it of an auction that was given up"
    )


def recounted(document: bytes, journal: bytes, may_not_have_ended: bool) -> recount.Recount:
    """The recounted auction, which must have ended."""
    try:
        counted = recount.recounted(document, journal)
    except Refused as fault:
        raise NoRecord(f"the set-up or the journal is refused: {fault}") from None
    if not counted.auction.ended and not may_not_have_ended:
        raise NoRecord(
            f"the auction has not ended. {len(counted.auction.rounds)} rounds are closed, "
            "and its tokens are valid."
        )
    return counted


def published_in(folder: pathlib.Path) -> dict[str, bytes]:
    """The published files, by their names in the folder."""
    if not folder.is_dir():
        raise NoRecord(f"{folder} is not a folder")
    paths = [*folder.rglob("*.json"), *folder.glob(notices.NAME)]
    found = sorted(str(path.relative_to(folder)) for path in paths)
    if strange := [name for name in found if not record.PUBLISHED.fullmatch(name)]:
        raise NoRecord(f"{folder} has {strange[0]}, which is never published during an auction")
    return {name: (folder / name).read_bytes() for name in found}


def write(folder: pathlib.Path, files: dict[str, bytes]) -> None:
    """Writes a folder next to its place, for its owner only, syncs it, and renames it."""
    fresh = folder.with_name(f"{folder.name}.new")
    shutil.rmtree(fresh, ignore_errors=True)
    fresh.mkdir()
    fresh.chmod(0o700)
    for name, content in files.items():
        path = fresh / name
        path.parent.mkdir(parents=True, exist_ok=True)
        with open(
            path, "wb", opener=lambda name, flags: os.open(name, flags, disk.PRIVATE)
        ) as file:
            file.write(content)
            file.flush()
            os.fsync(file.fileno())
    for each in [*(path for path in fresh.rglob("*") if path.is_dir()), fresh]:
        disk.sync_folder(each)
    os.rename(fresh, folder)
    disk.sync_folder(folder.parent)


def run(given: argparse.Namespace) -> int:
    try:
        if os.path.lexists(given.folder):
            raise NoRecord(f"{given.folder} is there already")
        document, journal = given.setup.read_bytes(), given.journal.read_bytes()
        counted = recounted(document, journal, given.not_ended)
        made = record.files_of(document, journal, published_in(given.published), counted)
        files = {**made, record.INDEX: record.index_of(made)}
        write(given.folder, files)
    except (NoRecord, OSError, ValueError, KeyError, TypeError) as fault:
        sys.exit(f"no record: {fault}")
    rounds = f"{len(counted.auction.rounds)} rounds"
    print(f"{given.folder}: {rounds}, {counted.texts} requests, {len(files)} files")
    print(f"index {hashlib.sha256(files[record.INDEX]).hexdigest()}")
    return 0


COMMAND = Command.of("record", __doc__, arguments, run)
