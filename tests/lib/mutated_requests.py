"""Good and mutated requests of an auction of one or two products and the bidders X, Y, and Z."""
from random import Random
from typing import Any

from tests.lib.http import compact, text_of
from tests.lib.mutations import NUMBERS, changed_bytes, changed_value, much_changed_bytes, written

BIDDERS = "XYZ"
SETUPS = ["one_product", "two_products", "granules_and_increments", "activity_limit"]
METHODS = ["GET", "GET", "GET", "PUT", "HEAD"]
PATHS = "status products rounds/1 me me/bids me/rounds/1 results close rounds/01".split()
LINES = [
    *b"host: 127.0.0.1|accept: */*|expect: 100-continue|connection: keep-alive".split(b"|"),
    *b"content-length: 0|content-length: 59|content-length: +5|content-length: 1048577".split(b"|"),
    *b"content-length:|content-length: 18446744073709551617".split(b"|"),
    *b"transfer-encoding: chunked|transfer-encoding: identity".split(b"|"),
    *b"authorization: Bearer |authorization: Basic eA==".split(b"|"),
    *b"Authorization:Bearer XXXXXXXXXXXXXXXX|authorization: bearer OPERATOROPERATOR".split(b"|"),
    *b" folded|a\0b: c|: x|x|x :y|\xff: \xff".split(b"|"),
    b"x: " + b"y" * 9000,
]
TOKENS = {"": "", "O": "OPERATOROPERATOR"}


def request(line: str, letter: str = "", body: bytes = b"") -> bytes:
    """A request with the token of a bidder's letter or of the operator, and a body."""
    return text_of(line, TOKENS.get(letter, letter * 16), body)


def good_sheet(random: Random, number: int) -> dict[str, Any]:
    """A sheet of up to two bids, which an auction may refuse."""
    prices = [100, 110, 100 + random.randrange(26), random.randrange(90, 160)]
    bids = [
        {"price": random.choice(prices), "product": product, "quantity": random.randrange(4)}
        for product in range(random.randrange(3))
    ]
    return {"bids": bids, "round": number}


def good_closing(random: Random, number: int) -> dict[str, Any]:
    """A closing of either version."""
    ties = [
        [random.randrange(3), random.randrange(2), random.randrange(9)]
        for _ in range(random.randrange(3))
    ]
    one, each = random.randrange(1, 51), [random.randrange(1, 51)] * random.choice([1, 2])
    forms: list[dict[str, Any]] = [{"increment": one}, {"increments": each}]
    return {**random.choice(forms), "round": number, "ties": ties}


def good_request(random: Random) -> bytes:
    """A request of a live auction, mostly one for round 1 or 2."""
    way, number = random.random(), random.choice([1, 1, 1, 2, 2, 3])
    value: Any
    if way < 0.66:
        value, line, letter = good_sheet(random, number), "PUT /v1/me/bids", random.choice(BIDDERS)
        changes = random.choice([0, 0, 0, 1, 2])
    elif way < 0.69:
        value, line, letter = good_closing(random, number), "POST /v1/close", "O"
        changes = random.choice([0, 1, 1, 2, 2])  # Good closings would soon end the auction.
    else:
        line = f"{random.choice(METHODS)} /v1/{random.choice(PATHS)}"
        return request(line, random.choice(["", "O", *BIDDERS]))
    for _ in range(changes):
        value = changed_value(random, value)
    return request(line, letter, written(value).encode(errors="replace"))


def with_line(random: Random, text: bytes) -> bytes:
    """The request with one more header line."""
    lines = text.split(b"\r\n")
    head = next((number for number, line in enumerate(lines) if not line), len(lines))
    lines.insert(random.randrange(1, head + 1), random.choice(LINES))
    return b"\r\n".join(lines)


def with_long_part(random: Random, text: bytes) -> bytes:
    """The request with a head or a body at a limit: lines, bytes, nesting, bids, or ties."""
    way = random.randrange(6)
    if way == 0:
        lines = b"x: y\r\n" * random.choice([59, 60, 61, 62, 63, 64, 65, 400])
        return text.replace(b"\r\n", b"\r\n" + lines, 1)
    if way == 1:
        end = text.find(b"\r\n\r\n") + 4
        line = b"x: " + b"y" * (16_384 - end - 5 + random.randrange(-3, 4)) + b"\r\n"
        return text.replace(b"\r\n", b"\r\n" + line, 1)
    if way == 2:
        depth = random.choice([126, 127, 128, 129, 1_000])
        return request("PUT /v1/me/bids", "X", b"[" * depth + b"]" * depth)
    if way == 3:
        bids = [{"price": 100, "product": 0, "quantity": 1}] * random.choice([8_192, 8_193])
        return request("PUT /v1/me/bids", "X", compact({"bids": bids, "round": 1}))
    if way == 4:
        ties = [[0, 1, 5]] * random.choice([16_384, 16_385])
        closing = {"increment": 10, "round": 1, "ties": ties}
        return request("POST /v1/close", "O", compact(closing))
    return text + b"z" * random.choice([1, 1_000, 20_000])


def mutated(random: Random) -> bytes:
    """A mutated request."""
    text, way = good_request(random), random.random()
    if way < 0.35:
        return text
    if way < 0.75:
        return much_changed_bytes(random, text)
    if way < 0.9:
        return with_line(random, text)
    if way < 0.91:
        return with_long_part(random, text)
    head, found, body = text.partition(b"\r\n\r\n")
    if way < 0.97 and found:
        length = b"content-length: "
        other = length + random.choice(NUMBERS).encode()
        return head.replace(length + b"%d" % len(body), other) + found + body
    return changed_bytes(random, changed_bytes(random, text) + text)
