"""One round's closing: its body is fixed on disk before it is sent, so the same one is sent again,
and its pages are stored.
"""
import dataclasses
import enum
import json
from pathlib import Path

from auction.formats.journal import Journal
from auction.formats.setup import Setup
from auction.formats.ties import MOST_TIES, needed_pairs, ties_of

from . import disk, stored
from .chain import Chain
from .server import Operator, Page

# The increments of a closing, in percent: one for all products, or in version 2 one for each.
Increments = list[int]


class NotClosed(Exception):
    """Why nothing was closed by this call."""


class Ties(enum.Enum):
    """What tie-breaking numbers a closing has: those of the chain, or none if it cannot list all
    that matter.
    """

    OF_CHAIN = "of the chain"
    NONE = "none"


class Origin(enum.Enum):
    """When the body of a closing was fixed: by an earlier call, which may have sent it, or by this
    one.
    """

    BEFORE = "before"
    NOW = "now"


class Outcome(enum.Enum):
    """What the server answered to a closing."""

    CLOSED = "closed"
    CLOSED_BEFORE = "closed before"
    REFUSED = "refused"


@dataclasses.dataclass(frozen=True)
class Answer:
    """The outcome of a closing that was sent, and the server's page."""

    outcome: Outcome
    page: Page


@dataclasses.dataclass(frozen=True)
class Auction:
    """What a closing needs: the server, the set-up, the journal, and the folder for bodies and
    pages.
    """

    operator: Operator
    setup: Setup
    journal: Journal
    folder: Path

    def lock(self) -> Path:
        """The lock of whoever closes a round, from the status to the stored pages."""
        return self.folder / ".lock"

    def chain(self) -> Chain:
        """The auction's chain of seeds."""
        return Chain.read(self.folder / "chain.json", self.setup)

    def fixed_file(self) -> Path:
        """Of which journal the last closing is that was made."""
        return self.folder / ".fixed.json"

    def body_file(self, number: int) -> Path:
        return self.folder / f"closing-{number}.json"

    def sheet_file(self, number: int) -> Path:
        return self.folder / f"round-{number}.json"

    def results_file(self, number: int) -> Path:
        return self.folder / f"results-{number}.json"


def last_closed(status: Page) -> int:
    """The last closed round by a page with `round` and `ended`, or 0."""
    return status["round"] if status["ended"] else status["round"] - 1


def increments_of(words: str, setup: Setup) -> Increments:
    """Increments as they are typed: `10`, or in version 2 also `10,20,10`, one for each product."""
    try:
        numbers = [int(part) for part in words.split(",")]
    except ValueError:
        numbers = []
    if not numbers or setup.version == 1 and len(numbers) > 1:
        raise NotClosed(f"{words!r} is no increment for a set-up of version {setup.version}")
    return numbers


def spread(setup: Setup, increments: Increments) -> Increments:
    """One increment for each product in version 2, if one was given for all."""
    return (
        increments * len(setup.products)
        if setup.version == 2 and len(increments) == 1
        else increments
    )


def body_of(setup: Setup, number: int, increments: Increments, ties: list[list[int]]) -> str:
    """The text of a closing."""
    given: Page = (
        {"increment": increments[0]}
        if setup.version == 1
        else {"increments": spread(setup, increments)}
    )
    return json.dumps({**given, "round": number, "ties": ties}, separators=(",", ":"))


def pairs_of(auction: Auction, number: int) -> list[tuple[int, int]]:
    """The pairs of bidder and product that get a tie-breaking number, by number.

    If there are too many for a closing, those that matter.
    """
    setup = auction.setup
    counts = len(setup.bidders), len(setup.products)
    matter = (
        set() if number == 1 or counts[0] * counts[1] <= MOST_TIES else pairs_that_matter(auction)
    )
    return needed_pairs(number, *counts, matter)


def pairs_that_matter(auction: Auction) -> set[tuple[int, int]]:
    """The pairs with processed demand, or with a bid whose quantity differs from it.

    A bid to maintain demand is no request, so it needs no number.
    """
    demands = [bidder["demands"] for bidder in auction.operator.page("/v1/results")["bidders"]]
    held = {
        (bidder, product)
        for bidder, row in enumerate(demands)
        for product, blocks in enumerate(row)
        if blocks
    }
    bids = auction.journal.bids_in_force()
    return held | {
        (bidder, product)
        for bidder, product, quantity in bids
        if quantity != demands[bidder][product]
    }


def listed_ties(auction: Auction, number: int, ties: Ties) -> list[list[int]]:
    """The tie-breaking numbers of this round's closing, by the seed of the round."""
    chain = auction.chain()
    seed = chain.seed(number)
    if seed is None:
        return []
    pairs = pairs_of(auction, number)
    if len(pairs) <= MOST_TIES:
        if pairs and ties is Ties.NONE:
            raise NotClosed(
                f"--no-ties: the closing can list all {len(pairs)} pairs, "
                "and bidders were promised that"
            )
        return ties_of(seed, chain.draw, number, pairs)
    if ties is Ties.NONE:
        return []
    raise NotClosed(
        f"{len(pairs)} pairs of bidder and product can matter, and a closing has at most "
        f"{MOST_TIES} tie-breaking numbers. With --no-ties it has none: at the same price point "
        "the lower bidder then comes first, so draw the order of the bidders in the set-up by lot "
        "before the auction."
    )


def fixed_increments(auction: Auction, number: int) -> Increments | None:
    """The increments of this round's closing if its body is on disk already."""
    file = auction.body_file(number)
    if not file.exists():
        return None
    body = json.loads(file.read_bytes())
    return [body["increment"]] if auction.setup.version == 1 else body["increments"]


def check_fixed(auction: Auction, number: int, increments: Increments) -> None:
    """Refuses other increments than those of a body that is on disk already."""
    before = fixed_increments(auction, number)
    if before not in (None, spread(auction.setup, increments)):
        raise NotClosed(
            f"{auction.body_file(number)} was made before, with the increments {before}, and may "
            "still arrive. Give these."
        )


def fix(auction: Auction, number: int, increments: Increments, ties: Ties, digest: str) -> None:
    """Brings the body of this round's closing to the disk, after the digest of the journal that it
    is made for.

    One that is there may have been sent, and may still arrive: it stays.
    """
    if not auction.body_file(number).exists():
        body = body_of(auction.setup, number, increments, listed_ties(auction, number, ties))
        made = json.dumps({"digest": digest, "round": number}) + "\n"
        disk.store(auction.fixed_file(), made)
        disk.store(auction.body_file(number), body)


def fixed_for(auction: Auction, number: int) -> str | None:
    """The journal's digest for which the closing on the disk was made, or None without one.

    A closing that somebody else has made is for no journal that is known.
    """
    if not auction.body_file(number).exists():
        return None
    file = auction.fixed_file()
    made = stored.read(file, digest=str, round=int) if file.exists() else {}
    return str(made["digest"]) if made.get("round") == number else ""


def send(auction: Auction, number: int, origin: Origin) -> Answer:
    """Sends the closing that is fixed on disk.

    If the server refuses it for good, it is removed, so that the next one may be another.
    """
    page = auction.operator.ask("/v1/close", auction.body_file(number).read_bytes())
    if "closed" in page:
        return Answer(Outcome.CLOSED, page)
    if page["code"] in ("wrong_round", "ended"):
        return Answer(Outcome.CLOSED_BEFORE, page)
    # a wrong token is refused before the body is read: a closing sent before may still arrive
    if origin is Origin.NOW or page["code"] not in ("token", "role"):
        disk.remove(auction.body_file(number))
    return Answer(Outcome.REFUSED, page)


def keep(auction: Auction) -> int:
    """Stores what the server forgets: the results of the last closed round, and each closing and
    sheet up to it that is not stored yet.

    Returns that round. A round that was closed in another way is stored with the closing that the
    journal has.
    """
    results = auction.operator.page("/v1/results")
    last = last_closed(results)
    auction.journal.read_on()
    bodies = [auction.journal.body(entry) for entry in auction.journal.closings]
    if len(bodies) < last:
        raise NotClosed(
            f"nothing is stored: {auction.journal.path} has no closing of round {last}. "
            "Is it the server's own, and no copy?"
        )
    for number, body in enumerate(bodies[:last], 1):
        if number == last or not auction.sheet_file(number).exists():
            disk.store(auction.body_file(number), body)
            disk.store(auction.sheet_file(number), json.dumps(to_publish(auction, number)))
    lines = [json.dumps(json.loads(body), separators=(",", ":")) + "\n" for body in bodies]
    disk.store(auction.folder / "closings.jsonl", "".join(lines))
    disk.store(auction.results_file(last), json.dumps(results))
    return last


def to_publish(auction: Auction, number: int) -> Page:
    """The results of a closed round, with the digest of its closing and its seed, for everyone."""
    seed = auction.chain().seed(number)
    return {
        **auction.operator.page(f"/v1/rounds/{number}"),
        "digest": auction.journal.closings[number - 1].digest,
        "seed": None if seed is None else seed.hex(),
    }


def stored_results(auction: Auction, number: int) -> Page:
    """What is stored of a closed round, for everyone."""
    return json.loads(auction.sheet_file(number).read_bytes())


def check_folder(auction: Auction, last: int) -> None:
    """Refuses a folder with more closings than the auction: it is another auction's, or the server
    lost its journal.
    """
    stored = auction.folder / "closings.jsonl"
    if stored.exists() and len(stored.read_bytes().splitlines()) > last:
        raise NotClosed(
            f"{stored} has more closings than the auction. Give each auction a folder of its own. "
            "If this folder is right, the server has lost its journal: stop the auction."
        )
