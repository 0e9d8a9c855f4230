"""What docs/deployment.md says about the server without nginx."""
import json
import pathlib
import socket
from collections.abc import Callable
from concurrent.futures import ThreadPoolExecutor
from typing import Any

import pytest

from tests.lib.paths import EXAMPLES
from tests.lib.server import Server
from tests.lib.setups import OPERATOR
from tests.ports.port import BIDDERS, PRODUCTS, Port, setup_of

CONNECTIONS = 9_000
X = "X" * 16
SHEET = {"bids": [{"price": 100, "product": 0, "quantity": 2}], "round": 1}


def close(port: Port, number: int, ties: list[list[int]]) -> Any:
    """The page for a closing."""
    value = {"increment": 10, "round": number, "ties": ties}
    return port.page("POST", "/v1/close", OPERATOR, value)


def test_a_closing_before_anyone_bid_ends_the_auction(
    server: Callable[..., Server], tmp_path: pathlib.Path
) -> None:
    (tmp_path / "setup.json").write_text(json.dumps(setup_of(BIDDERS, PRODUCTS)))
    port = Port(server(tmp_path / "setup.json").ready().port)
    assert close(port, 1, []) == {"closed": 1, "ended": True}


# ---- Connections


def knock(port: int, count: int) -> None:
    """Opens connections, and sends an empty head over each, until the server ends."""
    for _ in range(count):
        try:
            with socket.create_connection(("127.0.0.1", port), 20) as peer:
                peer.sendall(b"\r\n\r\n")
                while peer.recv(4096):
                    pass
        except OSError:
            return


def test_clients_without_a_token_use_up_the_connections_and_the_server_restarts_with_its_journal(
    server: Callable[..., Server], tmp_path: pathlib.Path
) -> None:
    files = (EXAMPLES / "two_products.json", tmp_path / "auction.journal")
    first = server(*files, connections=CONNECTIONS).ready()
    assert first.lines[0].startswith("journal 0 ")
    assert Port(first.port).page("PUT", "/v1/me/bids", X, SHEET)["accepted"]
    with ThreadPoolExecutor(3) as pool:
        for _ in range(3):
            pool.submit(knock, first.port, CONNECTIONS // 3)
    assert first.ended()[0] == 0
    second = server(*files, connections=CONNECTIONS).ready()
    assert second.lines[0].startswith("journal 1 ")
    assert Port(second.port).page("GET", "/v1/me/bids", X)["bids"] == SHEET["bids"]


# ---- Tie-breaking numbers


@pytest.mark.parametrize(
    "count, page",
    [(16_385, {"code": "too_many_ties", "status": 422}), (16_384, {"closed": 1, "ended": True})],
)
def test_16_384_tie_breaking_numbers_are_accepted_and_no_more(
    server: Callable[..., Server], tmp_path: pathlib.Path, count: int, page: object
) -> None:
    (tmp_path / "setup.json").write_text(json.dumps(setup_of(129, 128)))
    pairs = [[bidder, product, 1] for bidder in range(129) for product in range(128)]
    port = Port(server(tmp_path / "setup.json").ready().port)
    assert close(port, 1, pairs[:count]) == page


@pytest.mark.parametrize(
    "ties, demands",
    [([], [1, 1]), ([[0, 0, 1]], [2, 0]), ([[0, 0, 1], [1, 0, 2]], [1, 1])],
    ids=["none: the first bidder first", "not listed: before all that are", "listed: by number"],
)
def test_a_pair_without_a_tie_breaking_number_comes_first(
    server: Callable[..., Server], ties: list[list[int]], demands: list[int]
) -> None:
    port = Port(server(EXAMPLES / "one_product.json").ready().port)
    for number, bids in ((1, ((100, 2), (100, 1))), (2, ((105, 1), (105, 0)))):
        for letter, (price, quantity) in zip("XY", bids):
            bid = {"price": price, "product": 0, "quantity": quantity}
            sheet = {"bids": [bid], "round": number}
            assert port.page("PUT", "/v1/me/bids", letter * 16, sheet)["accepted"]
        close(port, number, ties if number == 2 else [])
    results = port.page("GET", "/v1/results", OPERATOR)
    assert [bidder["demands"][0] for bidder in results["bidders"]] == demands
