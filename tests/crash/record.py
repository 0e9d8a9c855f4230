"""Runs servers on one journal, and records each system call on which the journal depends."""
from dataclasses import dataclass, replace
from enum import Enum
from pathlib import Path

from tests.crash.auction import Auction
from tests.crash.requests import BIDDERS, closing, is_accepted, next_price, sheet
from tests.crash.shims import Shims
from tests.lib.http import reply_to, text_of
from tests.lib.journals import FRONT, HEAD
from tests.lib.setups import OPERATOR

PAGE = 4096
STATUS = text_of("GET /v1/status")


class Outcome(Enum):
    """The required result of a request."""

    LOGGED = "logged"
    REFUSED = "refused"
    PAGE = "page"
    NO_REPLY = "no reply"


@dataclass(frozen=True)
class Request:
    """A request, and its required result."""

    text: bytes
    outcome: Outcome


@dataclass(frozen=True)
class Generation:
    """A server from start to end: its requests, and the call that is refused.

    The call is refused once the file has this length, on the second file if `is_mirror`.
    """

    requests: list[Request]
    refused: tuple[str, int] | None = None
    is_mirror: bool = False


@dataclass(frozen=True)
class Call:
    """A system call: its name, its index, length, or count, and its bytes.

    `is_mirror` if it is about the second file of a journal.
    """

    name: str
    number: int = 0
    content: bytes = b""
    is_mirror: bool = False


@dataclass(frozen=True)
class Recorded:
    """A generation that was run: its calls, its status, and what its clients received."""

    requests: list[Request]
    calls: list[Call]
    status: int
    outcomes: list[Outcome]
    received: int


def calls_in(record: Path) -> list[Call]:
    """The calls of a record, which is removed. A server without calls leaves no record."""
    lines = record.read_text().splitlines() if record.exists() else []
    record.unlink(missing_ok=True)
    return [call_in(line) for line in lines]


def call_in(line: str) -> Call:
    """The call in a line, as record_calls.c writes it."""
    if line.startswith("mirror "):
        return replace(call_in(line.removeprefix("mirror ")), is_mirror=True)
    name, *words = line.split(" ")
    match name:
        case "write":
            return Call(name, int(words[0]), bytes.fromhex(words[1]))
        case "print":
            return Call(name, 0, bytes.fromhex(words[0]))
        case "ftruncate" | "send":
            return Call(name, int(words[0]))
        case _:
            return Call(name)


def padded(token: str, number: int, price: int, length: int) -> bytes:
    """A sheet of exactly this length, with spaces after its body."""
    spaces = 0
    while short := length - len(sheet(token, number, price, 2, spaces)):
        spaces += short
    return sheet(token, number, price, 2, spaces)


class Plan:
    """Plans the requests to one generation after another, with the journal's length after them."""

    def __init__(self) -> None:
        self.size = HEAD
        self.requests: list[Request] = []
        self.generations: list[Generation] = []

    def logs(self, text: bytes) -> None:
        """Plans a request that is logged."""
        self.requests.append(Request(text, Outcome.LOGGED))
        self.size += FRONT + len(text)

    def logs_up_to(self, size: int, token: str, number: int, price: int) -> None:
        """Logs a sheet after which the journal has this length."""
        self.logs(padded(token, number, price, size - self.size - FRONT))

    def shows(self, *texts: bytes) -> None:
        """Plans requests for pages."""
        self.requests += [Request(text, Outcome.PAGE) for text in texts]

    def refuses(self, *texts: bytes) -> None:
        """Plans requests that are refused."""
        self.requests += [Request(text, Outcome.REFUSED) for text in texts]

    def ends_by_write(self, text: bytes) -> None:
        """Ends a generation: only half of this request can be written."""
        self.ends(Request(text, Outcome.NO_REPLY), ("write", self.size + FRONT))

    def ends_by_sync(self, text: bytes) -> None:
        """Ends a generation: this request is written, but not synced. The next start finds it."""
        self.size += FRONT + len(text)
        self.ends(Request(text, Outcome.NO_REPLY), ("fdatasync", self.size))

    def ends(
        self,
        last: Request | None = None,
        refused: tuple[str, int] | None = None,
        is_mirror: bool = False,
    ) -> None:
        """Ends a generation, with the call that is refused, if any."""
        requests = self.requests + ([last] if last else [])
        self.generations.append(Generation(requests, refused, is_mirror))
        self.requests = []


def planned() -> list[Generation]:
    """Three generations of a journal.

    Records end before, at, and after a page's end, and one spans three pages.
    """
    plan, (x, y, z) = Plan(), BIDDERS
    plan_first(plan, x, y, z)
    price = next_price(100)
    plan.shows(STATUS)
    plan.logs_up_to(3 * PAGE, x, 2, price)
    plan.logs(sheet(z, 2, price, 1))
    plan.refuses(closing(1))
    plan.ends_by_sync(sheet(y, 2, price, 2))
    plan.shows(text_of("GET /v1/me/bids", y))
    plan.logs(sheet(z, 2, price, 2))
    plan.logs(closing(2))
    plan.refuses(closing(2))
    plan.logs(sheet(x, 3, next_price(price), 1))
    plan.ends()
    return plan.generations


def plan_first(plan: Plan, x: str, y: str, z: str) -> None:
    """Plans the first generation: round 1, and a sheet of round 2 that is written by half."""
    plan.shows(STATUS)
    plan.refuses(text_of("GET /none"), closing(2))
    plan.logs(sheet(x, 1, 100, 1))
    plan.shows(text_of("GET /v1/me/bids", x))
    plan.refuses(
        sheet(x, 2, 100, 1), sheet("N" * 16, 1, 100, 1), text_of("PUT /v1/me/bids", y, b"{")
    )
    plan.logs_up_to(3 * PAGE - 700, y, 1, 100)
    plan.logs(sheet(z, 1, 100, 1))
    plan.logs(closing(1))
    plan.refuses(closing(1), sheet(x, 1, 100, 1))
    plan.shows(text_of("GET /v1/results", OPERATOR))
    plan.ends_by_write(padded(x, 2, next_price(100), 1000))


def record(
    auction: Auction,
    shims: Shims,
    journal: Path,
    generation: Generation,
    mirror: Path | None = None,
) -> Recorded:
    """Runs a generation."""
    lines = auction.folder / "record"
    refusal = None
    if generation.refused:
        call, size = generation.refused
        file = mirror if mirror and generation.is_mirror else journal
        refusal = shims.refuse(file, call, size=size)
    environment = shims.record(journal, lines, refusal, mirror)
    options = {"mirror": mirror, "connections": len(generation.requests)}
    with auction.server(journal, environment=environment, **options) as server:
        replies = [reply_to(server.port, request.text) for request in generation.requests]
        status, _errors = server.ended()
    outcomes = list(map(outcome_of, generation.requests, replies))
    return Recorded(generation.requests, calls_in(lines), status, outcomes, sum(map(len, replies)))


def outcome_of(request: Request, reply: bytes) -> Outcome:
    """The result of a request, by its reply."""
    if not reply:
        return Outcome.NO_REPLY
    if not is_accepted(reply):
        return Outcome.REFUSED
    return Outcome.PAGE if request.text.startswith(b"GET") else Outcome.LOGGED
