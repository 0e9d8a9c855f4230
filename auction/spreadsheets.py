"""A set-up from two spreadsheets: CSV files of products and of bidders."""
import csv
import dataclasses
import json
import pathlib
import secrets
from collections.abc import Iterator
from typing import Any

from auction.mock import MARK
from auction.recount.formats import Refused, setup_in

TOKEN_BYTES = 16  # of entropy in a token, written as 32 letters
OF_PRODUCTS = ("name", "units", "supply", "opening")
OF_BIDDERS = ("name", "eligibility")
NUMBERS = ("units", "supply", "cap", "opening", "granule", "eligibility")


class SpreadsheetFault(ValueError):
    """What is wrong in a spreadsheet, with its file and line."""


@dataclasses.dataclass(frozen=True)
class Names:
    """What people call the auction, its products, and its bidders. The rules have short names."""

    title: str
    products: dict[str, str]
    bidders: dict[str, str]

    def of_mock(self) -> "Names":
        """The names in a mock auction, whose title says so."""
        return dataclasses.replace(self, title=MARK + self.title)

    def text(self) -> str:
        """The file names.json, which everyone can see."""
        return json.dumps(dataclasses.asdict(self), ensure_ascii=False, indent=1) + "\n"


def rows_in(
    path: pathlib.Path, required: tuple[str, ...], allowed: tuple[str, ...]
) -> Iterator[dict[str, Any]]:
    """The rows of a CSV file whose first line names its columns. Numbers are whole numbers."""
    try:
        yield from read_rows(path, required, allowed)
    except (UnicodeDecodeError, csv.Error):
        words = "this is not a CSV file in UTF-8. Save the spreadsheet as one"
        raise SpreadsheetFault(f"{path}: {words}") from None


def read_rows(
    path: pathlib.Path, required: tuple[str, ...], allowed: tuple[str, ...]
) -> Iterator[dict[str, Any]]:
    """As `rows_in`, with faults of the encoding."""
    with open(path, encoding="utf-8-sig", newline="") as file:
        reader = csv.DictReader(file, strict=True)
        columns = [name.strip() for name in reader.fieldnames or []]
        reader.fieldnames = columns
        if missing := [name for name in required if name not in columns]:
            raise SpreadsheetFault(f"{path}:1: the column {missing[0]} is missing")
        if strange := [name for name in columns if name not in (*required, *allowed)]:
            raise SpreadsheetFault(f"{path}:1: no column is called {strange[0]!r}")
        for row in reader:
            yield {
                name: value_of(f"{path}:{reader.line_num}", name, row[name])
                for name in columns
                if (row[name] or "").strip() or name in required
            }


def value_of(place: str, name: str, text: str | None) -> str | int:
    """The value of a cell."""
    text = (text or "").strip()
    if name not in NUMBERS:
        if not text:
            raise SpreadsheetFault(f"{place}: {name} is empty")
        return text
    digits = text.replace(",", "").removeprefix("$")
    if not (digits.isascii() and digits.isdigit()):
        raise SpreadsheetFault(f"{place}: {name} is {text!r}, and must be a whole number")
    return int(digits)


def titles_of(rows: list[dict[str, Any]]) -> dict[str, str]:
    """Takes the long names out of some rows. Returns them by short name."""
    return {row["name"]: row.pop("title") for row in rows if "title" in row}


def setup_of(
    products: pathlib.Path,
    bidders: pathlib.Path,
    title: str,
    requirement: int = 80,
    limit: int | None = None,
) -> tuple[bytes, Names]:
    """The set-up document of two spreadsheets, with fresh tokens, and the long names.

    The document is of version 2 if an activity limit is given or a product has a granule.
    """
    offered = list(rows_in(products, OF_PRODUCTS, ("cap", "granule", "title")))
    bidding = list(rows_in(bidders, OF_BIDDERS, ("title",)))
    names = Names(title, titles_of(offered), titles_of(bidding))
    has_granules = any("granule" in row for row in offered)
    version: dict[str, int] = {"version": 1}
    if limit is not None or has_granules:
        version = {"version": 2, "limit": limit or 100}
    for row in offered:
        row.setdefault("cap", row["supply"])
        if version["version"] == 2:
            row.setdefault("granule", 1)
    for row in bidding:
        row["token"] = secrets.token_hex(TOKEN_BYTES)
    value = {
        **version,
        "requirement": requirement,
        "operator": secrets.token_hex(TOKEN_BYTES),
        "products": offered,
        "bidders": bidding,
    }
    document = json.dumps(value, indent=1).encode() + b"\n"
    try:
        setup_in(document)
    except Refused as fault:
        raise SpreadsheetFault(f"{in_words(str(fault), products, bidders)}") from None
    return document, names


def in_words(code: str, products: pathlib.Path, bidders: pathlib.Path) -> str:
    """The fault of a set-up as a line of a spreadsheet, if it is about one row."""
    parts = code.split()
    if len(parts) == 3 and parts[0] == "setup_range":
        path = bidders if parts[1] in ("bidder_name", "token", "eligibility") else products
        column = parts[1].removeprefix("bidder_")
        return f"{path}:{int(parts[2]) + 2}: {column} is out of range"
    if code == "setup_duplicate_name":
        return f"{products} or {bidders} has a name twice"
    return f"the set-up is refused: {code}"
