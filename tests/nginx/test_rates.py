"""How often, and how many at once: what counts together, and what does not."""
import re
import socket
import time
from collections import Counter
from collections.abc import Callable
from concurrent.futures import ThreadPoolExecutor

import pytest

from tests.lib.site import Site
from tests.lib.tls import ADDRESSES, Client, connected
from tests.lib.waiting import wait_for
from tests.nginx.recorder import Recorder
from tests.nginx.requests import (
    A_SECOND,
    A_SECOND_OWN,
    AT_ONCE,
    OPERATOR,
    Bidder,
    asks_inside,
    get,
    head,
    logged_from,
    put,
    replies_of,
    sheet_of,
    statuses,
)

NewBidder = Callable[[], Bidder]
MANY = 200
REFUSED = (
    "401 GET /v1/me",
    "401 GET /v1/me/bids",
    "401 PUT /v1/me/bids",
    "401 GET /v1/me/rounds/1",
    "401 GET /v1/rounds/1",
    "404 GET /none",
    "404 GET /operator.html",
    "404 GET /v1/close",
    "405 DELETE /v1/status",
    "405 PUT /v1/products",
)
# IPv6 addresses, each with a number. Those of the first two forms are of one network of 64 bits.
ONE_NETWORK = ("2001:db8:0:7:%x::9", "2001:db8::%x:0:0:9")
MANY_NETWORKS = "fe80:0:0:%d::1"
# What a record of the journal has besides a sheet, in bytes.
HEAD = 300


def most(seconds: float, a_second: int = A_SECOND) -> float:
    """The most requests that are answered in these seconds."""
    return AT_ONCE + 1 + a_second * seconds + 1


@pytest.mark.parametrize("row", REFUSED)
def test_refused_requests_count_against_the_rate(site: Site, recorder: Recorder, row: str) -> None:
    status, method, path = row.split()
    found, seconds = statuses(site.outside, [head(method, path)] * MANY)
    assert found.keys() == {int(status), 429}
    assert found[int(status)] <= most(seconds)
    assert not recorder.seen


@pytest.mark.parametrize("row", REFUSED)
def test_requests_that_come_too_often_are_not_logged(
    site: Site, recorder: Recorder, row: str
) -> None:
    status, method, path = row.split()
    address = next(ADDRESSES)
    found, _ = statuses(site.outside, [head(method, path)] * MANY, address)
    logged = 0 if status == "405" else found[int(status)]
    wait_for("the lines of the log", lambda: len(logged_from(site, address)) >= logged, 20)
    time.sleep(0.1)
    assert len(logged_from(site, address)) == logged


# ---- What counts together


def passed(
    clients: list[Client], path: str, token: str | None, each: int, pause: float = 0
) -> tuple[int, float]:
    """How many of each client's requests are not too often, and the seconds that all took."""
    begun, count = time.monotonic(), 0
    for _ in range(each):
        for client in clients:
            reply = client.ask("GET", path, token)
            assert reply.status == 200 or reply.refuses(429, "too_often")
            count += reply.status == 200
        time.sleep(pause)
    return count, time.monotonic() - begun


def test_an_address_may_ask_20_times_a_second_and_60_times_at_once(
    site: Site, recorder: Recorder
) -> None:
    count, seconds = passed([Client(site.outside)], "/v1/status", None, 100)
    assert AT_ONCE + 1 <= count <= most(seconds)
    assert get(site, "/v1/status").status == 200, "another address"


def test_a_bidder_may_ask_2_times_a_second_and_60_times_at_once_from_all_addresses(
    site: Site, recorder: Recorder, new_bidder: NewBidder
) -> None:
    clients = [Client(site.outside) for _ in range(5)]
    count, seconds = passed(clients, "/v1/me", new_bidder().token, 20, pause=0.1)
    assert AT_ONCE + 1 <= count <= most(seconds, A_SECOND_OWN)
    assert get(site, "/v1/me", new_bidder().token).status == 200, "another bidder"


@pytest.mark.parametrize("path", ["/openapi.json", "/public/winners.json"])
def test_an_address_may_ask_for_a_file_100_times_a_second_and_200_times_at_once(
    site: Site, recorder: Recorder, path: str
) -> None:
    found, seconds = statuses(site.outside, [head("GET", path)] * 400)
    assert 201 <= 400 - found[429] <= 202 + 100 * seconds


def test_bidders_of_one_address_do_not_share_a_rate(
    site: Site, recorder: Recorder, new_bidder: NewBidder
) -> None:
    bidders = [new_bidder() for _ in range(6)]
    texts = [head("GET", "/v1/status", bidder.token) for bidder in bidders * (AT_ONCE // 2)]
    assert statuses(site.outside, texts)[0] == {200: len(texts)}


def from_networks(form: str) -> list[bytes]:
    """Requests of 200 IPv6 addresses."""
    lines = (f"x-trial-address: {form % number}" for number in range(1, MANY + 1))
    return [head("GET", "/v1/status", None, line) for line in lines]


@pytest.mark.parametrize("form", ONE_NETWORK)
def test_addresses_of_one_ipv6_network_share_a_rate(
    site: Site, recorder: Recorder, form: str
) -> None:
    found, seconds = statuses(site.outside, from_networks(form))
    assert found[200] <= most(seconds)
    assert found[429]


def test_addresses_of_many_ipv6_networks_share_no_rate(site: Site, recorder: Recorder) -> None:
    assert statuses(site.outside, from_networks(MANY_NETWORKS))[0] == {200: MANY}


def test_who_has_no_token_uses_up_none_of_the_operators_requests(
    site: Site, recorder: Recorder
) -> None:
    paths = ("/v1/status", "/none", "/conductor.json")
    texts = [head("GET", path, host="localhost") for path in paths] * 50
    peer = socket.create_connection(("127.0.0.1", site.inside), 20)
    found, seconds = replies_of(peer, texts)
    assert len(texts) - found[429] <= most(seconds)
    assert found.keys() == {200, 401, 404, 429}
    assert asks_inside(site, "/v1/results", OPERATOR).status == 200


def test_many_people_open_the_desk_at_once(site: Site) -> None:
    """Without one of its files, a page does nothing."""
    texts = [
        head("GET", path, host="localhost") for path in ("/", "/desk.css", "/operator.js")
    ] * 70
    peer = socket.create_connection(("127.0.0.1", site.inside), 20)
    found, _ = replies_of(peer, texts)
    assert found == {200: len(texts)}


# ---- At the same time


def test_of_18_requests_of_an_address_that_wait_16_are_answered(
    site: Site, recorder: Recorder
) -> None:
    address = next(ADDRESSES)
    peers = [connected(site.outside, address) for _ in range(18)]
    time.sleep(1.02 - time.time() % 1)  # nginx has no status of the next second
    recorder.may_go.clear()
    for peer in peers:
        peer.sendall(head("GET", "/v1/status"))
    with ThreadPoolExecutor(18) as pool:
        replies = [
            pool.submit(lambda one: int(one.recv(65_536).split()[1]), peer) for peer in peers
        ]
        try:
            wait_for("two are refused", lambda: sum(reply.done() for reply in replies) >= 2, 15)
            refused = [reply.result() for reply in replies if reply.done()]
        finally:
            recorder.may_go.set()
        found = Counter(reply.result() for reply in replies)
    assert refused == [429, 429]
    assert found == {200: 16, 429: 2}


def test_of_9_sheets_of_a_bidder_on_their_way_8_are_taken(
    site: Site, recorder: Recorder, bidder: Bidder
) -> None:
    peers = [connected(site.outside) for _ in range(9)]
    for peer in peers[:8]:
        peer.sendall(sheet_of(bidder.token)[:-1])
    time.sleep(0.3)
    peers[8].sendall(sheet_of(bidder.token)[:-1])
    assert peers[8].recv(65_536).startswith(b"HTTP/1.1 429 ")
    for peer in peers[:8]:
        peer.sendall(sheet_of(bidder.token)[-1:])
    assert [int(peer.recv(65_536).split()[1]) for peer in peers[:8]] == [200] * 8


# ---- Large sheets


def test_of_25_large_sheets_at_once_20_or_some_more_are_handed_on(
    site: Site, recorder: Recorder, bidder: Bidder
) -> None:
    found, _ = statuses(site.outside, [sheet_of(bidder.token, b" " * 10_000)] * 25)
    assert 20 < found[200] < 24
    assert found[200] + found[429] == 25
    assert put(site, bidder.token, b" " * 9_999).status == 200, "a small one passes"


def test_a_sheet_of_unknown_length_counts_as_a_large_one(
    site: Site, recorder: Recorder, bidder: Bidder
) -> None:
    chunked = head("PUT", "/v1/me/bids", bidder.token, "transfer-encoding: chunked")
    found, _ = statuses(site.outside, [chunked + b"1\r\n \r\n0\r\n\r\n"] * 25)
    assert 20 < found[200] < 24
    assert found[200] + found[429] == 25


# ---- What would take long to see


def number_in(site: Site, pattern: str) -> int:
    """A number of nginx.conf."""
    found = re.search(pattern, (site.folder / "nginx.conf").read_text())
    assert found, pattern
    return int(found[1])


def test_a_cached_status_is_stored_for_longer_than_a_reply_may_take(site: Site) -> None:
    """Otherwise each long reply is an alert in error.log."""
    stored = number_in(site, r"zone=status:1m inactive=(\d+)s")
    assert stored > number_in(site, r"proxy_read_timeout (\d+)s")


def test_a_bidder_adds_at_most_half_a_gigabyte_an_hour_to_the_journal(site: Site) -> None:
    small = number_in(site, r"zone=bidder:1m +rate=(\d+)r/s")
    large = number_in(site, r"zone=large:1m +rate=(\d+)r/m")
    longest = number_in(site, r"client_max_body_size (\d{3,});")
    digits = number_in(site, r"\^PUT \(\\d\{(\d+),\}\)\?\$")
    added = 3600 * (small * (10 ** (digits - 1) + HEAD) + large / 60 * longest)
    assert added < 0.5e9
