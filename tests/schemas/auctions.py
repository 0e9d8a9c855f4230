"""Auctions in which each page of each route comes, and each refusal but out of memory."""
import json
import pathlib
from collections.abc import Iterable, Iterator
from typing import Any, NamedTuple

from tests.lib.http import answer_to, compact, text_of
from tests.lib.mutated_requests import TOKENS, request
from tests.lib.paths import EXAMPLES
from tests.lib.server import Server

Bid = tuple[int, int, int]
Tie = list[int]


class Sent(NamedTuple):
    """A request: its method, its route, and its bytes."""

    method: str
    route: str
    text: bytes


class Reply(NamedTuple):
    """A request, and the status and the page of its reply."""

    sent: Sent
    status: int
    page: str

    @property
    def code(self) -> str:
        """The code of a refusal, or nothing."""
        return str(json.loads(self.page).get("code", ""))

    @property
    def described(self) -> tuple[str, str, int, str]:
        """What server.json describes of it: the method, the route, the status, and the page."""
        return self.sent.method, self.sent.route, self.status, self.page


# The routes as docs/formats.md names them: whose token they need ("" none, X a bidder's, O the
# operator's), and the methods.
ROUTES = {
    "/v1/status": ("", ["GET"]),
    "/v1/products": ("", ["GET"]),
    "/v1/rounds/{n}": ("", ["GET"]),
    "/v1/me": ("X", ["GET"]),
    "/v1/me/bids": ("X", ["GET", "PUT"]),
    "/v1/me/rounds/{n}": ("X", ["GET"]),
    "/v1/close": ("O", ["POST"]),
    "/v1/results": ("O", ["GET"]),
    "/{other}": ("", ["GET"]),
}


def path_of(route: str, number: int = 1) -> str:
    """The path of a route, with its parameters replaced."""
    return route.replace("{n}", str(number)).replace("{other}", "v1/none")


def sheet(*bids: Bid, number: int = 1) -> bytes:
    """A body of these bids, each a product, a quantity and a price."""
    rows = [
        {"price": price, "product": product, "quantity": quantity}
        for product, quantity, price in bids
    ]
    return compact({"bids": rows, "round": number})


def closing(ties: Iterable[Tie] = (), increment: int = 10, number: int = 1) -> bytes:
    """The body of a closing of version 1."""
    return compact({"increment": increment, "round": number, "ties": list(ties)})


def put(letter: str, body: bytes) -> Sent:
    return Sent("PUT", "/v1/me/bids", request("PUT /v1/me/bids", letter, body))


def close(body: bytes) -> Sent:
    return Sent("POST", "/v1/close", request("POST /v1/close", "O", body))


def get(route: str, letter: str | None = None, number: int = 1) -> Sent:
    owner = ROUTES[route][0] if letter is None else letter
    return Sent("GET", route, request(f"GET {path_of(route, number)}", owner))


def pages(number: int = 1) -> Iterator[Sent]:
    """Yields a request of each page."""
    for route, (_, methods) in ROUTES.items():
        if "GET" in methods:
            yield get(route, number=number)


def refused_by_the_head(method: str, route: str) -> Iterator[Sent]:
    """Yields requests of a route's method for each refusal that depends only on the head."""
    owner, _ = ROUTES[route]
    line, token = f"{method} {path_of(route)}", TOKENS.get(owner, owner * 16)
    head = text_of(line, token).removesuffix(b"\r\n")
    for rest in (
        b"x: y\r\n" * 70,
        b"x\r\n",
        b"transfer-encoding: chunked\r\n",
        b"content-length: x\r\n",
        b"content-length: 1048577\r\n",
    ):
        yield Sent(method, route, head + rest + b"\r\n")
    yield Sent(method, route, head + b"content-length: 9\r\n\r\n1")
    yield Sent(method, route, text_of(f"DELETE {path_of(route)}", token))
    if owner:
        yield Sent(method, route, request(line))
        yield Sent(method, route, request(line, "O" if owner == "X" else "X"))


def refused_bodies() -> Iterator[Sent]:
    """Yields requests of round 1 with bodies that are refused."""
    for body in (
        b"{",
        b"{}",
        sheet(number=2),
        sheet(*[(0, 1, 100)] * 8193),
        sheet((1, 1, 100)),
        sheet((0, 1, 101)),
        sheet((0, 3, 100)),
    ):
        yield put("X", body)
    for body in (
        b"{",
        b"{}",
        closing(number=2),
        closing(increment=51),
        closing([[0, 0, 1]] * 16_385),
        closing([[9, 0, 1]]),
        closing([[0, 0, 1]] * 2),
    ):
        yield close(body)


def one_product() -> Iterator[Sent]:
    """Yields the requests of an auction of examples/one_product.json, to its end."""
    for route, (_, methods) in ROUTES.items():
        for method in methods:
            yield from refused_by_the_head(method, route)
    yield from pages()
    yield from refused_bodies()
    yield put("X", sheet((0, 2, 100)))
    yield put("Y", sheet((0, 1, 100)))
    yield get("/v1/me/bids")
    yield close(closing())
    for bids in ([(0, 1, 104), (0, 0, 103)], [(0, 1, 103), (0, 2, 110)], [(0, 2, 103)]):
        yield put("X", sheet(*bids, number=2))
    yield put("X", sheet((0, 0, 103), number=2))
    yield put("Y", sheet((0, 1, 110), number=2))
    yield from pages()
    yield close(closing(number=2))
    yield put("X", sheet(number=2))
    yield close(closing(number=2))
    yield from pages(number=2)


def little_eligibility() -> Iterator[Sent]:
    """Yields a sheet for a bidder with little eligibility."""
    yield put("X", sheet((0, 2, 100)))


def highest_price() -> Iterator[Sent]:
    """Yields a round at the highest price."""
    yield put("X", sheet((0, 2, 10**12)))
    yield put("Y", sheet((0, 1, 10**12)))
    yield close(closing())


def version_2() -> Iterator[Sent]:
    """Yields requests of an auction of version 2."""
    yield get("/v1/products")
    yield close(b'{"increments":[10,20],"round":1,"ties":[[0,1,7]]}')


def changed(part: str, key: str, value: int) -> Any:
    """The example of one product with one number changed."""
    setup = json.loads((EXAMPLES / "one_product.json").read_text())
    setup[part][0][key] = value
    return setup


def auctions() -> Iterator[tuple[Any, list[Sent]]]:
    """Yields the set-up of each auction with its requests."""
    for name, sent in (("one_product", one_product()), ("granules_and_increments", version_2())):
        yield json.loads((EXAMPLES / f"{name}.json").read_text()), list(sent)
    yield changed("bidders", "eligibility", 1), list(little_eligibility())
    yield changed("products", "opening", 10**12), list(highest_price())


def replies(program: pathlib.Path, folder: pathlib.Path) -> Iterator[Reply]:
    """Yields each request of the auctions with its reply."""
    for setup, requests in auctions():
        (folder / "setup.json").write_text(json.dumps(setup))
        with Server(program, folder / "setup.json", connections=len(requests)) as server:
            for sent in requests:
                status, page = answer_to(server.port, sent.text)
                yield Reply(sent, status, page.decode())
            assert server.ended() == (0, "")
