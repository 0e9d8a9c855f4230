"""The record of an auction: its files by name, with the index that lists them."""
import hashlib
import re
from pathlib import Path

from auction.formats import tables
from auction.recount import rules as recount

INDEX = "SHA256SUMS"
PUBLISHED = re.compile(
    r"(lots|order|commitment|draw|names|timetable|announcements|winners|rounds/[1-9][0-9]{0,15})"
    r"\.json"
    r"|notices\.jsonl"
)
ABOUT = """The record of an auction of clock_auction. docs/formats.md of its repository lists these
files and their columns, docs/auditors.md says what they prove.

The sums of all files:    sha256sum -c SHA256SUMS
The whole auction:        auction verify setup.json auction.journal FOLDER

FOLDER is this folder, or better, all that you saved yourself while the auction was running.

setup.json and auction.journal have the tokens of this auction. They open nothing any more.
"""
# The files that every record has besides its index and what was published.
OWN = {
    *tables.TABLES,
    *("digests.csv", "receipts_key.pem", "audit.txt", "public_setup.json"),
    *("setup.json", "auction.journal", "README.txt"),
}


def names_in(folder: Path) -> set[str]:
    """The names of all that a folder and its folders have, links too, but no plain folders."""
    paths = folder.rglob("*")
    return {
        str(path.relative_to(folder)) for path in paths if path.is_symlink() or not path.is_dir()
    }


def files_of(
    document: bytes, journal: bytes, published: dict[str, bytes], counted: recount.Recount
) -> dict[str, bytes]:
    """The files of a record without its index, by name."""
    made = {
        **tables.files_of(document, journal, counted),
        **tables.published_files_of(published),
        "README.txt": ABOUT,
    }
    own = {name: text.encode() for name, text in made.items()}
    return {**published, "setup.json": document, "auction.journal": journal, **own}


def index_of(files: dict[str, bytes]) -> bytes:
    """The index of these files: a line for each, as sha256sum reads them."""
    lines = [f"{hashlib.sha256(files[name]).hexdigest()}  {name}\n" for name in sorted(files)]
    return "".join(lines).encode()
