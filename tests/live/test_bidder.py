"""examples/bidder.py with wrong limits, a restarted server, and replies not of the server."""
import time
from collections.abc import Callable
from pathlib import Path

import pytest

from tests.lib.server import Server
from tests.live.bidders import Bidder, bids_of, close, put, wait_for_sheet
from tests.live.spoiler import Spoiler

X, Y = "X" * 16, "Y" * 16
ONE_BLOCK = [{"price": 100, "product": 0, "quantity": 1}]

StartServer = Callable[..., Server]
StartBidder = Callable[..., Bidder]
StartSpoiler = Callable[[int], Spoiler]


# ---- Limits


@pytest.mark.parametrize(
    ("text", "words"),
    [
        ('{"a": [100]}', "no product is called a"),
        ('{"A": [100, 200]}', "never rising"),
        ('{"A": [100.5]}', "whole numbers"),
        ('{"A": [', "Expecting"),
    ],
    ids=["unknown-product", "rising", "fraction", "not-json"],
)
def test_wrong_limits_end_a_bidder_before_any_bid(
    one_product: StartServer, bidder: StartBidder, limits: Path, text: str, words: str
) -> None:
    limits.write_text(text)
    server = one_product()
    assert words in bidder(server.port, X, limits, 0.1).fault()
    assert bids_of(server.port, X) is None


def test_limits_may_begin_with_a_byte_order_mark(
    one_product: StartServer, bidder: StartBidder, limits: Path
) -> None:
    limits.write_bytes(b'\xef\xbb\xbf{"A": [1000, 1000]}\r\n')
    server = one_product()
    bidder(server.port, X, limits, 0.1)
    wait_for_sheet(server.port, X)


def test_a_block_without_a_limit_leaves_at_the_start_of_round_price(
    one_product: StartServer, bidder: StartBidder, limits: Path
) -> None:
    server = one_product()
    put(server.port, X, 1, [{"price": 100, "product": 0, "quantity": 2}])
    put(server.port, Y, 1, ONE_BLOCK)
    close(server.port, 1)
    put(server.port, X, 2, [])
    limits.write_text('{"A": [1000]}')
    bidder(server.port, X, limits, 0.1)
    wait_for_sheet(server.port, X, other_than=[])
    assert bids_of(server.port, X) == ONE_BLOCK


def test_a_missing_file_of_certificates_ends_a_bidder(bidder: StartBidder, limits: Path) -> None:
    assert "CA: " in bidder("https://localhost:1", X, limits, 0.1, CA="/none.pem").fault()


# ---- Rounds


def test_a_bidder_ends_if_the_round_falls(
    one_product: StartServer, bidder: StartBidder, limits: Path
) -> None:
    server = one_product()
    put(server.port, Y, 1, ONE_BLOCK)
    started = bidder(server.port, X, limits, 0.2)
    wait_for_sheet(server.port, X)
    close(server.port, 1)
    wait_for_sheet(server.port, X)
    server.kill()
    one_product(port=server.port)
    assert "the round fell from 2 to 1" in started.fault()


@pytest.mark.parametrize("is_last", [False, True], ids=["a-middle-round", "the-last-round"])
def test_a_bidder_ends_if_it_missed_a_round(
    one_product: StartServer, bidder: StartBidder, limits: Path, is_last: bool
) -> None:
    server = one_product()
    put(server.port, Y, 1, ONE_BLOCK)
    started = bidder(server.port, X, limits, 2)
    wait_for_sheet(server.port, X)
    close(server.port, 1)
    if not is_last:  # Without bids, all demands are reduced to 0, and the auction ends.
        for token, quantity in ((X, 2), (Y, 1)):
            put(server.port, token, 2, [{"price": 110, "product": 0, "quantity": quantity}])
    close(server.port, 2)
    assert "round 2 was missed" in started.fault()


# ---- Replies that are not the server's

REPLIES = {
    "no-json": b"HTTP/1.1 200 OK\r\n\r\n<html>",
    "cut-short": b'HTTP/1.1 200 OK\r\ncontent-length: 50\r\n\r\n{"products"',
    "refusal-cut-short": b"HTTP/1.1 409 Conflict\r\ncontent-length: 50\r\n\r\n{",
    "server-error": b"HTTP/1.1 500 Internal Server Error\r\ncontent-length: 2\r\n\r\n{}",
    "no-reply": b"",
}
# Pages with status 200 that a proxy may send for any path.
OF_PROXIES = ["null", "[]", '{"status":200}', "[" * 100_000]
# The server's own pages with one change.
CHANGED = {
    "/v1/products": [
        '{"products":{}}',
        '{"products":["A"]}',
        '{"products":[{"name":"A"}]}',
        '{"products":[{"name":"A","opening":"100"}]}',
    ],
    "/v1/me": [
        '{"demands":[],"ended":false,"name":"X","round":1}',
        '{"demands":[null],"ended":false,"name":"X","round":1}',
    ],
    "/v1/me/bids": ['{"accepted":1,"bids":1}'],
    "/v1/status": ['{"ended":false,"round":"1"}'],
    "/v1/me/rounds/1": ['{"demands":2}'],
    "/v1/rounds/1": ['{"products":[]}', '{"products":[{"next":null,"posted":100}]}'],
}


@pytest.fixture
def spoiled(one_product: StartServer, spoiler: StartSpoiler) -> Spoiler:
    """A proxy in front of a server."""
    return spoiler(one_product().port)


@pytest.fixture
def start(
    bidder: StartBidder, limits: Path, spoiled: Spoiler, elsewhere: str
) -> Callable[[], Bidder]:
    """Starts a bidder at this proxy, which may use no other, though its environment names one."""
    return lambda: bidder(spoiled.url, X, limits, 0.05, http_proxy=elsewhere, no_proxy="")


def play_round_1(port: int) -> None:
    """Plays round 1 with a bidder, until it has a sheet in round 2."""
    wait_for_sheet(port, X)
    put(port, Y, 1, ONE_BLOCK)
    close(port, 1)
    wait_for_sheet(port, X)


@pytest.mark.parametrize("reply", REPLIES.values(), ids=REPLIES)
def test_a_bidder_asks_again_after_a_spoiled_reply(
    spoiled: Spoiler, start: Callable[[], Bidder], reply: bytes
) -> None:
    spoiled.replies = [reply]
    start()
    wait_for_sheet(spoiled.port, X)
    assert spoiled.replies == []


@pytest.mark.parametrize("path", CHANGED)
def test_a_bidder_asks_again_after_a_page_that_is_not_the_servers(
    spoiled: Spoiler, start: Callable[[], Bidder], path: str
) -> None:
    spoiled.pages = {path: OF_PROXIES + CHANGED[path]}
    start()
    play_round_1(spoiled.port)
    assert spoiled.pages == {path: []}


def test_a_bidder_follows_no_redirection(
    spoiled: Spoiler, start: Callable[[], Bidder], elsewhere: str
) -> None:
    started = start()
    wait_for_sheet(spoiled.port, X)
    spoiled.replies.append(f"HTTP/1.1 302 Found\r\nlocation: {elsewhere}\r\n\r\n".encode())
    assert "is refused: 302" in started.fault()


# ---- A server that has lost a sheet


def test_a_bidder_submits_a_lost_sheet_again_though_no_request_failed(
    one_product: StartServer, spoiler: StartSpoiler, bidder: StartBidder, limits: Path
) -> None:
    first, second = one_product(), one_product()
    proxy = spoiler(first.port)
    started = bidder(proxy.url, X, limits, 0.05)
    wait_for_sheet(first.port, X)
    proxy.port = second.port
    wait_for_sheet(second.port, X)
    close(second.port, 1)
    status, output, errors = started.ended()
    assert (status, output.splitlines()[-1]) == (0, "won X 2 200")
    assert "no longer in force" in errors


def test_a_bidder_submits_a_lost_sheet_again_soon_after_a_request_failed(
    one_product: StartServer, bidder: StartBidder, limits: Path
) -> None:
    server = one_product()
    started = bidder(server.port, X, limits, 2)
    wait_for_sheet(server.port, X)
    server.kill()
    assert started.child.stderr is not None
    assert started.child.stderr.readline().startswith("no reply to /v1/status")
    one_product(port=server.port)
    wait_for_sheet(server.port, X)


def test_a_bidder_leaves_a_sheet_that_was_submitted_in_another_way(
    one_product: StartServer, bidder: StartBidder, limits: Path
) -> None:
    server = one_product()
    started = bidder(server.port, X, limits, 0.05)
    wait_for_sheet(server.port, X)
    put(server.port, X, 1, ONE_BLOCK)
    time.sleep(3)  # It looks at its sheet every 1.5 seconds.
    assert bids_of(server.port, X) == ONE_BLOCK
    close(server.port, 1)
    status, output, errors = started.ended()
    assert (status, output.splitlines()[-1], errors) == (0, "won X 1 100", "")
