"""What the tests of nginx send, and how they read replies."""
import http.client
import json
import re
import socket
import time
from collections import Counter
from collections.abc import Iterable, Iterator
from typing import Any, NamedTuple

from tests.lib.site import Site
from tests.lib.tls import Client, Reply, connected

UNKNOWN, OPERATOR = "UNKN0WNT0KEN0000", "0PERAT0RST0KEN01"
SHEET = b'{"bids":[],"round":1}'
# The lines for pages of nginx.conf: what may load them, and what may show them in a frame.
PAGES_HAVE = "default-src 'self'; base-uri 'none'; form-action 'none'; frame-ancestors 'none'"
# The rates of nginx.conf, of an address or a bidder, and of a bidder's own pages.
AT_ONCE, A_SECOND, A_SECOND_OWN = 60, 20, 2


class Bidder(NamedTuple):
    """A bidder of the set-up."""

    name: str
    token: str


def head(method: str, path: str, token: str | None = None, *lines: str, host: str = "x") -> bytes:
    """A request without a body, or the head of one."""
    token_line = (f"authorization: Bearer {token}",) if token else ()
    rows = (f"{method} {path} HTTP/1.1", f"host: {host}", *token_line, *lines, "", "")
    return "\r\n".join(rows).encode()


def sheet_of(token: str, body: bytes = SHEET) -> bytes:
    """A request that sends a sheet."""
    lines = (f"content-length: {len(body)}",)
    return head("PUT", "/v1/me/bids", token, *lines, host="localhost") + body


def put(site: Site, token: str | None, body: bytes = SHEET) -> Reply:
    """The reply to a sheet, over a connection of its own."""
    client = Client(site.outside)
    try:
        return client.ask("PUT", "/v1/me/bids", token, body=body)
    finally:
        client.close()


def get(site: Site, path: str, token: str | None = None, *lines: str, method: str = "GET") -> Reply:
    """The reply to a request, over a connection of its own."""
    client = Client(site.outside)
    try:
        return client.ask(method, path, token, *lines)
    finally:
        client.close()


def sends(site: Site, text: bytes) -> Reply:
    """The reply to these bytes, over a connection of its own."""
    client = Client(site.outside)
    try:
        client.send(text)
        return client.reply()
    finally:
        client.close()


def half_sent(site: Site, token: str, body: bytes = SHEET) -> Client:
    """A client that has sent the head of a sheet and five bytes of its body."""
    client = Client(site.outside)
    client.send(sheet_of(token, body)[: -(len(body) - 5)])
    return client


def statuses(
    port: int, texts: Iterable[bytes], address: str | None = None
) -> tuple[Counter[int], float]:
    """The statuses of requests that come at once over one connection, and the seconds."""
    return replies_of(connected(port, address), list(texts))


def replies_of(peer: socket.socket, texts: list[bytes]) -> tuple[Counter[int], float]:
    """The statuses of requests that come at once over this connection, and the seconds."""
    begun = time.monotonic()
    found = Counter(status for status, _ in replies_in(peer, texts))
    return found, time.monotonic() - begun


def replies_in(peer: socket.socket, texts: list[bytes]) -> Iterator[tuple[int, bytes]]:
    """The statuses and pages for requests that come at once, until nginx ends the connection."""
    peer.sendall(b"".join(texts))
    with peer, peer.makefile("rb") as reader:
        for _ in texts:
            if not (first := reader.readline()):
                return
            length = 0
            while (line := reader.readline()) != b"\r\n":
                if line.lower().startswith(b"content-length:"):
                    length = int(line.split()[1])
            yield int(first.split()[1]), reader.read(length)


def asks_inside(
    site: Site,
    path: str,
    token: str | None = None,
    *,
    method: str = "GET",
    host: str | None = None,
    body: bytes | None = None,
    **lines: str,
) -> Reply:
    """The reply to a request at the operator's port."""
    connection = http.client.HTTPConnection("127.0.0.1", site.inside, timeout=10)
    connection.putrequest(method, path, skip_host=True)
    connection.putheader("host", host or f"127.0.0.1:{site.inside}")
    if token:
        connection.putheader("authorization", f"Bearer {token}")
    if body is not None:
        connection.putheader("content-length", str(len(body)))
    for name, value in lines.items():
        connection.putheader(name.replace("_", "-"), value)
    connection.endheaders(body)
    reply = connection.getresponse()
    found = Reply(reply.status, "\n" + str(reply.headers).lower(), reply.read())
    connection.close()
    return found


def without_date(reply: Reply) -> tuple[str, bytes]:
    """The head without its date, and the page."""
    return re.sub(r"\ndate: [^\r]*", "", reply.head), reply.page


def ten(after: int = 0) -> str:
    """The name of the current ten seconds, or of other ones after them."""
    return str(int(time.time()) // 10 + after)


def tens(kind: str = "") -> tuple[str, str]:
    """The names of files in gate/ for the current ten seconds and the next ones."""
    return kind + ten(), kind + ten(1)


def log_of(site: Site, name: str = "access.log") -> list[str]:
    """The lines of a log."""
    return (site.folder / "log" / name).read_text(errors="surrogateescape").splitlines()


def logged_from(site: Site, address: str) -> list[dict[str, Any]]:
    """The lines of the log for requests from this address."""
    return [json.loads(line) for line in log_of(site) if f'"from":"{address}"' in line]
