"""The set-up, the requests, and the journal of docs/formats.md, read without the program.

What these formats refuse is `Refused` with the code or the words that the program has for it.
"""
import hashlib
import json
import math
import re
from collections import defaultdict
from collections.abc import Iterator
from typing import Any, NamedTuple, TypeVar


class Refused(Exception):
    """What the rules or the formats refuse, with its code."""


def require(condition: bool, code: str) -> None:
    """Refuses with this code unless the condition holds."""
    if not condition:
        raise Refused(code)


# ---- JSON

Shape = TypeVar("Shape", bound=tuple[Any, ...])


def json_in(text: bytes) -> Any:
    """The value of a JSON text. Raises ValueError if it is not JSON."""
    try:
        value = json.loads(
            text.decode(), parse_int=number_in, parse_float=number_in, parse_constant=number_in
        )
        is_deep = nesting(value) > 127
    except RecursionError:
        is_deep = True
    if is_deep:
        raise ValueError("nested too deep")
    json.dumps(value, ensure_ascii=False).encode()  # A lone surrogate has no UTF-8.
    return value


def number_in(digits: str) -> int | float:
    """A number.

    Raises ValueError for NaN and for a number such as 1e400, which Python reads as infinity.
    """
    if digits.isdigit() and len(digits) <= 20:
        return int(digits)
    if not math.isfinite(value := float(digits)):
        raise ValueError(f"{digits} is no number")
    return value


def nesting(value: Any) -> int:
    """The number of levels of objects and lists."""
    inner = value.values() if isinstance(value, dict) else value
    return 1 + max(map(nesting, inner), default=0) if isinstance(value, (dict, list)) else 0


def is_a(kind: Any, value: Any) -> bool:
    """Whether a value is of this kind. A number must be whole, and fit 64 bits."""
    if kind is int:
        return type(value) is int and 0 <= value < 2**64
    return isinstance(value, getattr(kind, "__origin__", kind))


def shaped(shape: type[Shape], value: Any, **given: Any) -> Shape:
    """The values of a JSON object with exactly the fields of this shape.

    Refuses any other value.
    """
    kinds = {name: kind for name, kind in shape.__annotations__.items() if name not in given}
    require(isinstance(value, dict) and value.keys() == kinds.keys(), "shape")
    require(all(is_a(kinds[name], field) for name, field in value.items()), "shape")
    return shape(**value, **given)


# ---- The set-up document


class Product(NamedTuple):
    name: str
    units: int
    supply: int
    cap: int
    opening: int
    granule: int


class Bidder(NamedTuple):
    name: str
    token: str
    eligibility: int


class Setup(NamedTuple):
    version: int
    requirement: int
    limit: int
    operator: str
    products: list[Product]
    bidders: list[Bidder]


def setup_in(document: bytes) -> Setup:
    """The set-up of a document. One of version 1 has a limit of 100 and granules of 1."""
    require(len(document) <= 67_108_864, "long_input")
    try:
        value = json_in(document)
    except ValueError:
        raise Refused("setup_not_json") from None
    require(isinstance(value, dict) and is_a(int, value.get("version")), "setup_shape")
    require(value["version"] in (1, 2), "setup_version")
    limit, granule = ({"limit": 100}, {"granule": 1}) if value["version"] == 1 else ({}, {})
    try:
        setup = shaped(Setup, value, **limit)
        products = [shaped(Product, each, **granule) for each in setup.products]
        setup = setup._replace(
            products=products, bidders=[shaped(Bidder, each) for each in setup.bidders]
        )
    except Refused:
        raise Refused("setup_shape") from None
    for place, is_within in ranges(setup):
        require(is_within, f"setup_range {place}")
    for names in ([each.name for each in setup.products], [each.name for each in setup.bidders]):
        require(len(set(names)) == len(names), "setup_duplicate_name")
    tokens = [setup.operator, *(bidder.token for bidder in setup.bidders)]
    require(len(set(tokens)) == len(tokens), "setup_duplicate_token")
    return setup


def ranges(setup: Setup) -> Iterator[tuple[str, bool]]:
    """Yields each limit of a set-up in order, and whether the set-up is within it."""
    name, token = re.compile("[A-Za-z0-9_-]{1,32}"), re.compile("[A-Za-z0-9]{16,64}")
    yield "requirement", 50 <= setup.requirement <= 100
    yield "limit", 100 <= setup.limit <= 140
    yield "operator", bool(token.fullmatch(setup.operator))
    yield "products", 1 <= len(setup.products) <= 4_096
    for i, product in enumerate(setup.products):
        yield f"name {i}", bool(name.fullmatch(product.name))
        yield f"units {i}", 1 <= product.units <= 10**6
        yield f"supply {i}", 1 <= product.supply <= 1_000
        yield f"cap {i}", 1 <= product.cap <= product.supply
        yield f"opening {i}", 1 <= product.opening <= 10**12
        yield f"granule {i}", 1 <= product.granule <= 10**6
    yield "bidders", 1 <= len(setup.bidders) <= 512
    for i, bidder in enumerate(setup.bidders):
        yield f"bidder_name {i}", bool(name.fullmatch(bidder.name))
        yield f"token {i}", bool(token.fullmatch(bidder.token))
        yield f"eligibility {i}", bidder.eligibility <= 10**12


# ---- Requests


class Request(NamedTuple):
    """The parts of a request that the rules use."""

    method: bytes
    path: bytes
    token: str
    body: bytes


NAME = rb"[!#$%&'*+.^_`|~0-9A-Za-z-]+"
FIRST_LINE = re.compile(rb"(" + NAME + rb") ([!-~]+) HTTP/1\.[01]")
HEADER_LINE = re.compile(rb"(" + NAME + rb"):[ \t]*([\t -~\x80-\xff]*?)[ \t]*")


def request_in(text: bytes) -> Request:
    """The parts of a whole request. Ignores bytes after its body."""
    head, end, rest = text.partition(b"\r\n\r\n")
    first, *lines = head.split(b"\r\n")
    require(len(end) == 4 and len(head) <= 16_380 and len(lines) <= 64, "long_head")
    values: dict[bytes, list[bytes]] = defaultdict(list)
    for line in lines:
        header = HEADER_LINE.fullmatch(line)
        if header is None:
            raise Refused("bad_head")
        values[header[1].lower()].append(header[2])
    target = FIRST_LINE.fullmatch(first)
    if target is None:
        raise Refused("bad_head")
    require(not values[b"transfer-encoding"], "coding")
    lengths, credentials = values[b"content-length"] or [b"0"], values[b"authorization"]
    require(len(lengths) == 1 and lengths[0].isdigit(), "bad_length")
    length = int(lengths[0].lstrip(b"0")[:8] or b"0")
    require(length <= 1_048_576, "long_body")
    require(length <= len(rest), "cut_short")
    bearer = (
        re.fullmatch(rb"(?i:bearer) +([!-~]+)", credentials[0]) if len(credentials) == 1 else None
    )
    return Request(
        target[1], target[2].partition(b"?")[0], bearer[1].decode() if bearer else "", rest[:length]
    )


class Bid(NamedTuple):
    product: int
    quantity: int
    price: int


class Sheet(NamedTuple):
    bids: list[Bid]
    round: int


class Closing(NamedTuple):
    """A closing of version 2. Each tie has a bidder, a product, and a number."""

    increments: list[int]
    round: int
    ties: list[list[int]]


class ClosingOfVersion1(NamedTuple):
    increment: int
    round: int
    ties: list[list[int]]


def sheet_in(value: Any) -> Sheet:
    """The sheet of a body's value."""
    sheet = shaped(Sheet, value)
    return sheet._replace(bids=[shaped(Bid, bid) for bid in sheet.bids])


def closing_in(value: Any, setup: Setup) -> Closing:
    """The closing of a body's value. In version 1, each product has the same increment."""
    if setup.version == 1:
        increment, number, ties = shaped(ClosingOfVersion1, value)
        closing = Closing([increment] * len(setup.products), number, ties)
    else:
        closing = shaped(Closing, value)
    require(all(is_a(list, tie) and len(tie) == 3 for tie in closing.ties), "shape")
    require(
        all(is_a(int, each) for numbers in [closing.increments, *closing.ties] for each in numbers),
        "shape",
    )
    return closing


# ---- The journal

KIND = b"clock_auction journal 1\n"


class Record(NamedTuple):
    """A request of a journal, the byte where its record begins, and the digest up to its end."""

    place: int
    text: bytes
    digest: str


def records_in(document: bytes, journal: bytes) -> Iterator[Record]:
    """The whole records of a journal, without a torn one at the end."""
    digest = hashlib.sha256(document).digest()
    if len(journal) < 56 and (KIND + digest).startswith(journal):
        return
    require(journal[:24] == KIND, "journal_unknown")
    require(journal[24:56] == digest, "journal_setup")
    place = 56
    while len(journal) - place >= 8:
        length, again = (int.from_bytes(journal[at : at + 4], "big") for at in (place, place + 4))
        stored, end = journal[place + 8 : place + 40], place + 40 + length
        require(length == again and 1 <= length <= 16_777_215, f"journal_damaged {place}")
        if len(journal) < end:
            return
        text = journal[place + 40 : end]
        digest = hashlib.sha256(digest + text).digest()
        if digest != stored and len(journal) == end:
            return
        require(digest == stored, f"journal_damaged {place}")
        yield Record(place, text, digest.hex())
        place = end
