"""After nginx's cache is emptied, the next auction shows nothing of the last one."""
import json
import pathlib
from collections.abc import Iterator

import pytest

from tests.lib.http import answer_to, text_of
from tests.lib.paths import EXAMPLES
from tests.lib.server import Server
from tests.lib.setups import OPERATOR
from tests.lib.site import Site, running
from tests.lib.tls import Client
from tests.lib.waiting import wait_for

pytestmark = pytest.mark.needs("nginx", "openssl")

PAGES = ("/v1/status", "/v1/products", "/v1/rounds/1")
X = "X" * 16
SHEET = b'{"bids":[{"price":100,"product":0,"quantity":2}],"round":1}'


@pytest.fixture(scope="module")
def site(program: pathlib.Path) -> Iterator[Site]:
    """nginx, whose cache had pages of an auction, before the server of the next one."""
    with running(program, json.loads((EXAMPLES / "two_products.json").read_text())) as started:
        play(started)
        cached = [file for file in (started.folder / "tmp/cache").rglob("*") if file.is_file()]
        assert len(cached) >= 2, "products and a round"
        assert started.server is not None
        started.server.kill()
        for file in cached:
            file.unlink()
        one_product = EXAMPLES / "one_product.json"
        started.server = Server(program, one_product, port=started.server_port).ready()
        yield started


def play(site: Site) -> None:
    """Plays a round of an auction of two products, and has nginx cache its pages."""
    close = b'{"increment":10,"round":1,"ties":[]}'
    for line, token, body in (
        ("PUT /v1/me/bids", X, SHEET),
        ("POST /v1/close", OPERATOR, close),
    ):
        assert answer_to(site.server_port, text_of(line, token, body))[0] == 200
    client = Client(site.outside)
    for page in PAGES:
        assert client.ask("GET", page, X).status == 200
    assert len(client.ask("GET", "/v1/products").json["products"]) == 2


def test_the_status_is_of_the_next_auction(site: Site) -> None:
    """A status is cached for a second."""
    begin = {"ended": False, "round": 1, "version": 1}
    client = Client(site.outside)
    wait_for("its status", lambda: client.ask("GET", "/v1/status").json == begin, 20, 0.2)


def test_the_products_are_of_the_next_auction(site: Site) -> None:
    assert len(Client(site.outside).ask("GET", "/v1/products").json["products"]) == 1


def test_no_round_of_the_last_auction_is_shown(site: Site) -> None:
    assert Client(site.outside).ask("GET", "/v1/rounds/1", X).status == 404
