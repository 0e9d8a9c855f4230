"""The tables of an auction, with the columns of docs/formats.md: each is the text of a CSV file.

`auction record` writes them. `auction verify` makes them again and compares. Both read only the
set-up document and the journal, and count as `auction recount` does.
"""
import csv
import hashlib
import io
import json
from collections.abc import Iterable, Iterator
from typing import Any, NamedTuple

from auction.recount import rules as recount
from auction.recount.formats import (
    Bid,
    Setup,
    closing_in,
    json_in,
    records_in,
    request_in,
    sheet_in,
)

from .sent import person_in, taken_in

Row = Iterable[Any]


class Sheet(NamedTuple):
    """An accepted sheet. `number` counts all requests of the journal.

    `taken` and `by` are when and by whom it was sent, as its receipt says.
    """

    number: int
    round: int
    bidder: int
    bids: list[Bid]
    sha256: str
    in_force: bool
    taken: str
    by: str


class Auction(NamedTuple):
    """A recounted auction, with each accepted sheet, and the ties of each closing."""

    setup: Setup
    rounds: list[recount.Round]
    sheets: list[Sheet]
    ties: list[list[list[int]]]


def auction_in(document: bytes, journal: bytes, counted: recount.Recount) -> Auction:
    """The auction of a set-up document and its recounted journal."""
    setup, sheets, ties = counted.auction.setup, list[Sheet](), list[list[list[int]]]()
    bidders = {bidder.token: number for number, bidder in enumerate(setup.bidders)}
    for number, (_, text, _) in enumerate(records_in(document, journal), 1):
        request = request_in(text)
        if request.method == b"POST":
            ties.append(closing_in(json_in(request.body), setup).ties)
            continue
        bids = sheet_in(json_in(request.body)).bids
        sha256 = hashlib.sha256(text).hexdigest()
        whose = len(ties) + 1, bidders[request.token]
        sent = taken_in(text), person_in(text)
        sheets.append(Sheet(number, *whose, bids, sha256, False, *sent))
    last = {(sheet.round, sheet.bidder): sheet.number for sheet in sheets}
    sheets = [
        sheet._replace(in_force=last[sheet.round, sheet.bidder] == sheet.number) for sheet in sheets
    ]
    return Auction(setup, counted.auction.rounds, sheets, ties)


def yes(holds: bool) -> str:
    return "yes" if holds else "no"


def kind_of(bid: Bid, demand: int) -> str:
    """What a bid asks for. The bids of a chain all move the same way from the processed demand."""
    return (
        "maintain" if bid.quantity == demand else "increase" if bid.quantity > demand else "reduce"
    )


def sheet_rows(auction: Auction) -> Iterator[Row]:
    """The rows of sheets.csv: one for each accepted sheet."""
    for sheet in auction.sheets:
        name = auction.setup.bidders[sheet.bidder].name
        known = sheet.number, sheet.round, name, len(sheet.bids), yes(sheet.in_force)
        yield *known, sheet.sha256, sheet.taken, sheet.by


def bid_rows(auction: Auction) -> Iterator[Row]:
    """The rows of bids.csv: one for each bid of each accepted sheet."""
    for sheet in auction.sheets:
        demands = [0] * len(auction.setup.products)
        if sheet.round > 1:
            demands = auction.rounds[sheet.round - 2].slips[sheet.bidder].demands
        name = auction.setup.bidders[sheet.bidder].name
        for place, bid in enumerate(sheet.bids):
            kind = kind_of(bid, demands[bid.product])
            product = auction.setup.products[bid.product].name
            asked = kind, bid.quantity, bid.price
            yield sheet.round, name, product, *asked, sheet.number, place, yes(sheet.in_force)


def product_rows(auction: Auction) -> Iterator[Row]:
    """The rows of product_results.csv: one for each product in each round."""
    for number, closed in enumerate(auction.rounds, 1):
        for product, line, increment in zip(
            auction.setup.products, closed.lines, closed.increments
        ):
            excess = max(0, line.demand - product.supply)
            prices = line.start, line.clock, line.posted, line.next or ""
            yield number, product.name, product.supply, line.demand, excess, *prices, increment


def demand_rows(auction: Auction) -> Iterator[Row]:
    """The rows of processed_demands.csv: one for each processed demand above 0 after each round."""
    for number, closed in enumerate(auction.rounds, 1):
        for bidder, slip in zip(auction.setup.bidders, closed.slips):
            for product, blocks in zip(auction.setup.products, slip.demands):
                if blocks:
                    yield number, bidder.name, product.name, blocks


def activity_rows(auction: Auction) -> Iterator[Row]:
    """The rows of activity.csv: one for each bidder in each round."""
    eligibilities = [bidder.eligibility for bidder in auction.setup.bidders]
    for number, closed in enumerate(auction.rounds, 1):
        for place, (bidder, slip) in enumerate(zip(auction.setup.bidders, closed.slips)):
            has_sheet, before = yes(place in closed.sheets), eligibilities[place]
            yield number, bidder.name, has_sheet, before, slip.activity, slip.eligibility
            eligibilities[place] = slip.eligibility


def tie_rows(auction: Auction) -> Iterator[Row]:
    """The rows of ties.csv: one for each tie-breaking number of each closing."""
    for number, ties in enumerate(auction.ties, 1):
        for bidder, product, tie in ties:
            names = auction.setup.bidders[bidder].name, auction.setup.products[product].name
            yield number, *names, tie


def winner_rows(auction: Auction) -> Iterator[Row]:
    """The rows of winners.csv: one for each product that a bidder has won.

    None if the auction has not ended.
    """
    last = auction.rounds[-1] if auction.rounds else None
    if last is None or not last.ended:
        return
    for bidder, slip in zip(auction.setup.bidders, last.slips):
        for product, line, blocks in zip(auction.setup.products, last.lines, slip.demands):
            if blocks:
                yield bidder.name, product.name, blocks, line.posted, blocks * line.posted


# Each table's columns, and the function for its rows.
TABLES = {
    "sheets.csv": ("sheet,round,bidder,bids,in_force,sha256,taken,by", sheet_rows),
    "bids.csv": ("round,bidder,product,bid_type,quantity,price,sheet,place,in_force", bid_rows),
    "product_results.csv": (
        "round,product,supply,aggregate_demand,excess_demand,start_of_round_price,clock_price,"
        "posted_price,next_clock_price,increment",
        product_rows,
    ),
    "processed_demands.csv": ("round,bidder,product,processed_demand", demand_rows),
    "activity.csv": (
        "round,bidder,sheet_in_force,eligibility,activity,next_eligibility",
        activity_rows,
    ),
    "ties.csv": ("round,bidder,product,tie_breaking_number", tie_rows),
    "winners.csv": ("bidder,product,blocks,posted_price,payment", winner_rows),
}


def table(columns: str, rows: Iterable[Row]) -> str:
    """The text of a CSV file."""
    text = io.StringIO()
    csv.writer(text, lineterminator="\n").writerows([columns.split(","), *rows])
    return text.getvalue()


def bare(document: bytes) -> str:
    """The set-up document without tokens."""
    setup = json.loads(document)
    del setup["operator"]
    for bidder in setup["bidders"]:
        del bidder["token"]
    return json.dumps(setup, indent=1) + "\n"


def files_of(document: bytes, journal: bytes, counted: recount.Recount) -> dict[str, str]:
    """The files that follow from a set-up document and a journal, by name."""
    auction = auction_in(document, journal, counted)
    made = {name: table(columns, rows(auction)) for name, (columns, rows) in TABLES.items()}
    audit = "".join(line + "\n" for line in recount.report(counted))
    return {"audit.txt": audit, "public_setup.json": bare(document), **made}


def published_files_of(published: dict[str, bytes]) -> dict[str, str]:
    """The files that follow from what is published, by name: digests, and the key of receipts."""
    pages = [json.loads(text) for name, text in published.items() if name.startswith("rounds/")]
    rows = [
        [page["round"], page["digest"], page.get("published", ""), page.get("seed") or ""]
        for page in sorted(pages, key=lambda page: page["round"])
    ]
    made = {"digests.csv": table("round,digest,published,seed", rows)}
    if "commitment.json" in published:
        key = json.loads(published["commitment.json"])["key"]
        made["receipts_key.pem"] = f"-----BEGIN PUBLIC KEY-----\n{key}\n-----END PUBLIC KEY-----\n"
    return made
