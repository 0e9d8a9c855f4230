"""Bodies for examples/one_product.json that every auction refuses."""
from typing import Any, NamedTuple

from tests.lib.http import compact


class Body(NamedTuple):
    """A body, the status and the code of its refusal, and the path of the error."""

    kind: str
    value: Any
    code: str
    path: tuple[str | int, ...]

    @property
    def text(self) -> bytes:
        """The bytes of the body."""
        return self.value if isinstance(self.value, bytes) else compact(self.value)


BID = {"price": 100, "product": 0, "quantity": 1}
BODIES = [
    Body("sheet", b'{"bids":[],}', "400 bad_json", ()),
    Body("sheet", b'{"bids":[],"round":1}'.ljust(1_048_577), "413 long_body", ()),
    Body("sheet", {"round": 1}, "422 shape", ()),
    Body("sheet", {"bids": {}, "round": 1}, "422 shape", ("bids",)),
    Body("sheet", {"bids": [], "round": "1"}, "422 shape", ("round",)),
    Body("sheet", {"bids": [], "round": 1, "name": "X"}, "422 shape", ()),
    Body(
        "sheet",
        {"bids": [BID, {**BID, "price": 100.5}], "round": 1},
        "422 shape",
        ("bids", 1, "price"),
    ),
    Body("sheet", {"bids": [{"product": 0, "price": 100}], "round": 1}, "422 shape", ("bids", 0)),
    Body("sheet", {"bids": [], "round": 0}, "409 wrong_round", ("round",)),
    Body("sheet", {"bids": [BID] * 8193, "round": 1}, "422 too_many", ("bids",)),
    Body(
        "sheet",
        {"bids": [{**BID, "product": 4096}], "round": 1},
        "422 unknown_product",
        ("bids", 0, "product"),
    ),
    Body(
        "sheet",
        {"bids": [{**BID, "price": 0}], "round": 1},
        "422 price_range",
        ("bids", 0, "price"),
    ),
    Body(
        "sheet",
        {"bids": [{**BID, "price": 10**12 + 1}], "round": 1},
        "422 price_range",
        ("bids", 0, "price"),
    ),
    Body(
        "sheet",
        {"bids": [{**BID, "quantity": 1001}], "round": 1},
        "422 over_cap",
        ("bids", 0, "quantity"),
    ),
    Body("closing", b"", "400 bad_json", ()),
    Body("closing", {"increment": 10, "round": 1}, "422 shape", ()),
    Body("closing", {"increment": 10, "increments": [10], "round": 1, "ties": []}, "422 shape", ()),
    Body("closing", {"increment": 10, "round": 1, "ties": [[0, 0]]}, "422 shape", ("ties", 0)),
    Body("closing", {"increment": 10, "round": 0, "ties": []}, "409 wrong_round", ("round",)),
    Body("closing", {"increment": 0, "round": 1, "ties": []}, "422 increment", ("increment",)),
    Body("closing", {"increment": 51, "round": 1, "ties": []}, "422 increment", ("increment",)),
    Body(
        "closing",
        {"increment": 10, "round": 1, "ties": [[0, 0, 1]] * 16_385},
        "422 too_many_ties",
        ("ties",),
    ),
    Body(
        "closing",
        {"increment": 10, "round": 1, "ties": [[512, 0, 1]]},
        "422 tie_range",
        ("ties", 0, 0),
    ),
    Body(
        "closing",
        {"increment": 10, "round": 1, "ties": [[0, 4096, 1]]},
        "422 tie_range",
        ("ties", 0, 1),
    ),
    Body(
        "closing",
        {"increment": 10, "round": 1, "ties": [[0, 0, 1], [1, 0, 2], [0, 0, 3]]},
        "422 tie_repeated",
        ("ties", 2),
    ),
]
