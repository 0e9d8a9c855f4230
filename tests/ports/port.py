"""The server's own port and nginx's ports, between which nothing differs but TLS."""
import json
import pathlib
import socket
import ssl
import time
from collections.abc import Iterator
from typing import Any

from tests.lib import setups
from tests.lib.tls import addresses

PRODUCTS, BIDDERS = 4096, 512
# A client that has no answer after BLOCKED seconds counts as blocked. One that is not blocked has
# an answer within LATE seconds, also on a busy machine: nginx gives up on slow clients after 10 s.
BLOCKED, LATE = 1.0, 8.0
ADDRESSES = addresses()
TLS = ssl.create_default_context()
TLS.check_hostname, TLS.verify_mode = False, ssl.CERT_NONE


def token_of(number: int) -> str:
    """The token of a bidder."""
    return f"T0KEN{number:011}"


def setup_of(bidders: int, products: int) -> dict[str, Any]:
    """A set-up with long names."""
    names = [f"PRODUCT-WITH-A-LONG-NAME-{number:06}" for number in range(products)]
    rows = [setups.bidder(f"B{number}", token_of(number), 10) for number in range(bidders)]
    return setups.setup([setups.product(name, 1000) for name in names], rows)


def head(method: str, path: str, token: str = "", *lines: str) -> bytes:
    """The head of a request."""
    token_line = (f"authorization: Bearer {token}",) if token else ()
    return "\r\n".join(
        (f"{method} {path} HTTP/1.1", "host: localhost", *token_line, *lines, "", "")
    ).encode()


def account(number: int) -> bytes:
    """A bidder's request for its account, which nginx does not cache."""
    return head("GET", "/v1/me", token_of(number), "connection: close")


class Port:
    """A port of this machine."""

    def __init__(self, number: int, has_tls: bool = False) -> None:
        self.number, self.has_tls = number, has_tls

    def connected(self, is_small: bool = False, seconds: float = 60) -> socket.socket:
        """A connection from an address of its own. A small one stores nearly nothing unread."""
        peer = socket.socket()
        if is_small:
            peer.setsockopt(socket.SOL_SOCKET, socket.SO_RCVBUF, 2048)
        peer.settimeout(seconds)
        peer.bind((next(ADDRESSES), 0))
        peer.connect(("127.0.0.1", self.number))
        return TLS.wrap_socket(peer) if self.has_tls else peer

    def reply(self, text: bytes, seconds: float = 60) -> tuple[bytes, float] | None:
        """The page for a request, and the seconds until it is there. None if none comes in time."""
        begun, reply = time.monotonic(), b""
        try:
            with self.connected(seconds=seconds) as peer:
                peer.sendall(text)
                while piece := peer.recv(1 << 20):
                    reply += piece
        except (socket.timeout, ConnectionResetError):
            return None
        return reply.partition(b"\r\n\r\n")[2], time.monotonic() - begun

    def page(self, method: str, path: str, token: str = "", value: object = None) -> Any:
        """The page for a request with this body."""
        body = b"" if value is None else json.dumps(value).encode()
        lines = ("connection: close", f"content-length: {len(body)}")
        found = self.reply(head(method, path, token, *lines) + body)
        assert found, f"no reply to {method} {path}"
        return json.loads(found[0])

    def is_blocked(self, others: Iterator[int], seconds: float) -> bool:
        """Whether another bidder gets no account within these seconds."""
        return self.reply(account(next(others)), seconds) is None


def connections_at(number: int) -> int:
    """How many connections are open at a port of this machine."""
    rows = (row.split() for row in pathlib.Path("/proc/net/tcp").read_text().splitlines()[1:])
    return sum(row[3] == "01" and int(row[1].split(":")[1], 16) == number for row in rows)
