"""The set-ups, requests, and rehearsals that are tried with refused allocations."""
import json
from collections.abc import Iterable
from typing import Any

from tests.lib.http import text_of
from tests.lib.paths import EXAMPLES
from tests.lib.setups import OPERATOR

ONE = (EXAMPLES / "one_product.json").read_text()
TWO = (EXAMPLES / "two_products.json").read_text()
GRANULES = (EXAMPLES / "granules_and_increments.json").read_text()
OPENING = (EXAMPLES / "opening.json").read_text()
HIGHEST = 1_000_000_000_000
ONE_AT_HIGHEST = ONE.replace('"opening": 100', f'"opening": {HIGHEST}')
REPLAY = json.dumps(
    {
        "setup": json.loads(ONE),
        "scripts": [
            {"kind": "sincere", "limits": [[120, 115]]},
            {"kind": "sincere", "limits": [[130]]},
        ],
        "closings": [{"increment": 10, "ties": []}] * 3,
    }
)

# The program's end and a server's reply if it is out of memory.
OUT_OF_MEMORY = (1, b"", b"fault: memory\n")
REPLY_OUT_OF_MEMORY = (
    b"HTTP/1.1 503 Service Unavailable\r\nconnection: close\r\ncontent-length: 30\r\n"
    b'content-type: application/json\r\n\r\n{"code":"memory","status":503}'
)

Bid = tuple[int, int, int]


def written(value: Any) -> str:
    """A value as JSON without spaces, with its keys in byte order."""
    return json.dumps(value, separators=(",", ":"), sort_keys=True)


def sheet(number: int, *bids: Bid) -> str:
    """The body of a sheet with bids of a product, a quantity, and a price."""
    keys = ("product", "quantity", "price")
    return written({"bids": [dict(zip(keys, bid)) for bid in bids], "round": number})


def closing(number: int, ties: Iterable[list[int]] = (), **increments: Any) -> str:
    """The body of a closing."""
    return written({**(increments or {"increment": 10}), "round": number, "ties": list(ties)})


def request(line: str, letter: str = "", body: str | None = None) -> str:
    """A request with the token of a bidder's letter or of the operator, and a body."""
    token = OPERATOR if letter == "O" else letter * 16
    return text_of(line, token, None if body is None else body.encode()).decode()


def put(letter: str, number: int, *bids: Bid) -> str:
    return request("PUT /v1/me/bids", letter, sheet(number, *bids))


def close(number: int, ties: Iterable[list[int]] = (), **increments: Any) -> str:
    return request("POST /v1/close", "O", closing(number, ties, **increments))


SHORT_PUT = put("X", 1, (0, 2, 100))
assert len(SHORT_PUT) == 147
