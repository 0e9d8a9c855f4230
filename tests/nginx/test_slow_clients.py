"""When nginx gives up on clients that never come to an end: after the ten seconds of nginx.conf."""
import socket
import time
from collections.abc import Callable
from concurrent.futures import Future, ThreadPoolExecutor

import pytest

from tests.lib.site import Site
from tests.lib.tls import connected
from tests.nginx.requests import head
from tests.nginx.running import BIDDERS, Running

LONGEST = 25


def plain(site: Site) -> socket.socket:
    """A connection without TLS."""
    return socket.create_connection(("127.0.0.1", site.outside))


def secure(site: Site) -> socket.socket:
    """A connection over TLS."""
    return connected(site.outside)


HALF_A_BODY = head("PUT", "/v1/me/bids", BIDDERS[0].token, "content-length: 100") + b"{"
# How each connects, what it sends at first, and what it sends then each second.
CLIENTS: dict[str, tuple[Callable[[Site], socket.socket], bytes, bytes]] = {
    "says nothing": (plain, b"", b""),
    "sends half a head": (secure, b"GET /v1/st", b""),
    "sends half a body": (secure, HALF_A_BODY, b""),
    "sends a byte of a head each second": (secure, b"", b"G"),
}


def seconds_until_the_end(peer: socket.socket, first: bytes, then: bytes) -> float:
    """After how many seconds nginx ends the connection of a client."""
    begun = time.monotonic()
    try:
        peer.settimeout(1)
        peer.sendall(first)
        while time.monotonic() - begun < LONGEST:
            peer.sendall(then)
            try:
                if not peer.recv(4096):
                    break
            except socket.timeout:
                pass
    except OSError:
        pass
    return time.monotonic() - begun


@pytest.fixture(scope="module")
def ends(running: Running) -> dict[str, Future[float]]:
    """The clients, which all begin at once."""
    pool = ThreadPoolExecutor(len(CLIENTS))
    return {
        name: pool.submit(seconds_until_the_end, connect(running.site), first, then)
        for name, (connect, first, then) in CLIENTS.items()
    }


@pytest.mark.slow
@pytest.mark.parametrize("name", CLIENTS)
def test_nginx_gives_up_on_a_client_that(ends: dict[str, Future[float]], name: str) -> None:
    assert 9 < ends[name].result() < 20
