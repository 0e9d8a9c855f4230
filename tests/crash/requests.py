"""The auction's requests, and its pages."""
import json
import random
from collections.abc import Iterator

from tests.lib.http import answer_to, compact, reply_to, text_of
from tests.lib.setups import OPERATOR, bidder, product, setup

BIDDERS = [letter * 16 for letter in "XYZ"]
SETUP_TEXT = compact(setup([product("A", 2)], [bidder(token[0], token, 2) for token in BIDDERS]))
LAST_ROUND = 2000


def sheet(token: str, number: int, price: int, quantity: int, spaces: int = 0) -> bytes:
    """A sheet of one bid, at the clock price of a round, with spaces after its body."""
    bids = [{"price": price, "product": 0, "quantity": quantity}]
    body = compact({"bids": bids, "round": number}) + b" " * spaces
    return text_of("PUT /v1/me/bids", token, body)


def closing(number: int) -> bytes:
    """The closing of a round, after which prices rise by one percent."""
    body = compact({"increment": 1, "round": number, "ties": []})
    return text_of("POST /v1/close", OPERATOR, body)


def next_price(price: int) -> int:
    """The clock price of the next round, which is one percent higher, rounded up."""
    return -(-price * 101 // 100)


def requests(draw: random.Random) -> Iterator[bytes]:
    """Yields requests without end.

    Each round has a sheet of each bidder, about twenty more, pages, refused sheets, and its
    closing. Each sheet asks for one block or both, so three bidders ask for more than the two
    blocks, and no round ends the auction. After some 2,300 rounds no price is left, and the last
    round is never closed. A fast machine gets there.
    """
    number, price = 1, 100
    while True:
        for token in [*BIDDERS, *draw.choices(BIDDERS, k=draw.randint(10, 30))]:
            yield sheet(token, number, price, draw.choice((1, 2)))
            if draw.random() < 0.3:
                yield text_of("GET /v1/me/bids", token)
            if draw.random() < 0.1:
                yield sheet(token, number + 1, price, draw.choice((1, 2)))
        if number < LAST_ROUND:
            yield closing(number)
            number, price = number + 1, next_price(price)


def is_accepted(reply: bytes) -> bool:
    return reply.startswith(b"HTTP/1.1 200 OK")


def page(port: int, path: str, token: str = OPERATOR) -> bytes:
    """The reply to a request for a page."""
    return reply_to(port, text_of(f"GET {path}", token))


def pages_of(port: int) -> list[bytes]:
    """All pages of an auction, as each of its participants gets them."""
    last = json.loads(answer_to(port, text_of("GET /v1/status"))[1])["round"]
    numbers = range(1, last + 1)
    public = ["/v1/status", "/v1/products", "/v1/results"]
    public += [f"/v1/rounds/{number}" for number in numbers]
    own = ["/v1/me", "/v1/me/bids"] + [f"/v1/me/rounds/{number}" for number in numbers]
    pages = [page(port, path) for path in public]
    return pages + [page(port, path, token) for path in own for token in BIDDERS]


class Load:
    """Sends requests one after the other. If one gets no reply, the next server gets it too."""

    def __init__(self, draw: random.Random) -> None:
        self.requests = requests(draw)
        self.waiting = next(self.requests)
        self.replied: list[bytes] = []
        self.sent: set[bytes] = set()
        self.answers = 0

    def send_to(self, port: int) -> None:
        """Sends requests until one gets no reply."""
        while self.is_answered(port):
            self.waiting = next(self.requests)

    def is_answered(self, port: int) -> bool:
        """Sends one request. Notes it if it is accepted."""
        text = self.waiting
        self.sent.add(text)
        try:
            reply = reply_to(port, text)
        except OSError:
            return False
        if not reply.startswith(b"HTTP/1.1 ") or b"\r\n\r\n" not in reply:
            return False
        self.answers += 1
        # A request without a reply may have taken effect. A closing is then refused.
        if is_accepted(reply) and not text.startswith(b"GET"):
            self.replied.append(text)
        return True
