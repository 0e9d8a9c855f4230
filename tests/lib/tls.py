"""Requests over TLS to nginx, each client from an address of its own."""
import json
import pathlib
import re
import socket
import ssl
import time
from collections.abc import Iterator
from typing import Any, NamedTuple

from tests.lib.waiting import wait_for

SECONDS = 20


def addresses() -> Iterator[str]:
    """Addresses of this machine, one for each client, so that none counts against the rate of
    another.
    """
    for part in range(1, 200):
        for last in range(1, 250):
            yield f"127.8.{part}.{last}"


ADDRESSES = addresses()


def connected(
    port: int, address: str | None = None, protocols: tuple[str, ...] = ("http/1.1",)
) -> ssl.SSLSocket:
    """A connection over TLS, from this address or from one that no other client of this process
    has.
    """
    peer = socket.socket()
    peer.settimeout(SECONDS)
    peer.bind((address or next(ADDRESSES), 0))
    peer.connect(("127.0.0.1", port))
    context = ssl.SSLContext(ssl.PROTOCOL_TLS_CLIENT)  # no authorities, which load slowly
    context.check_hostname, context.verify_mode = False, ssl.CERT_NONE
    context.set_alpn_protocols(list(protocols))
    return context.wrap_socket(peer, server_hostname="localhost")


def in_hex(address: tuple[str, int]) -> str:
    """An address and its port as /proc/net/tcp has them."""
    return f"{socket.inet_aton(address[0])[::-1].hex().upper()}:{address[1]:04X}"


def unread_bytes(here: tuple[str, int], there: tuple[str, int]) -> int:
    """How many bytes, sent from here, the process there has not read, or this machine not sent."""
    ends = {(in_hex(there), in_hex(here)): 1, (in_hex(here), in_hex(there)): 0}
    rows = [line.split() for line in pathlib.Path("/proc/self/net/tcp").read_text().splitlines()]
    counts = [(ends.get((row[1], row[2])), row[4].split(":")) for row in rows[1:]]
    return sum(int(queues[which], 16) for which, queues in counts if which is not None)


class Reply(NamedTuple):
    """A reply: its status, its head in small letters, and its page."""

    status: int
    head: str
    page: bytes

    @property
    def json(self) -> Any:
        return json.loads(self.page)

    def refuses(self, status: int, code: str) -> bool:
        """Whether it is exactly this refusal."""
        return self.status == status and self.json == {"code": code, "status": status}


class Client:
    """An open connection over TLS."""

    def __init__(self, port: int, address: str | None = None) -> None:
        self.peer, self.rest = connected(port, address), b""

    def ask(
        self, method: str, path: str, token: str | None = None, *lines: str, body: bytes = b""
    ) -> Reply:
        """Sends a request. Returns its reply."""
        token_line = (f"authorization: Bearer {token}",) if token else ()
        length = (f"content-length: {len(body)}",) if body else ()
        head = (
            f"{method} {path} HTTP/1.1",
            "host: localhost",
            *token_line,
            *length,
            *lines,
            "",
            "",
        )
        self.send("\r\n".join(head).encode() + body)
        return self.reply(method)

    def send(self, text: bytes) -> None:
        self.peer.sendall(text)

    def reply(self, method: str = "GET") -> Reply:
        """The next reply."""
        while b"\r\n\r\n" not in self.rest:
            self.more()
        head, _, self.rest = self.rest.partition(b"\r\n\r\n")
        text = head.decode("latin1").lower()
        found = re.search(r"\ncontent-length: (\d+)", text)
        length = int(found[1]) if found and method != "HEAD" else 0
        while len(self.rest) < length:
            self.more()
        page, self.rest = self.rest[:length], self.rest[length:]
        return Reply(int(text.split()[1]), text, page)

    def more(self) -> None:
        piece = self.peer.recv(65_536)
        assert piece, f"the connection ended after {self.rest[:200]!r}"
        self.rest += piece

    def wait_until_read(self) -> None:
        """Waits until nginx has read all that was sent, and could act on it."""
        here, there = self.peer.getsockname(), self.peer.getpeername()
        wait_for("nginx reads what was sent", lambda: not unread_bytes(here, there), SECONDS)
        time.sleep(0.1)

    def close(self) -> None:
        self.peer.close()
