"""Somebody other than the server answers `auction close`."""
import http.server
import itertools
import socket
import threading
from collections.abc import Iterator

import pytest

from tests.close.auction import CloseAuction

PAGES = ("<html>", "null", "[]", "{}", '{"status":200}')
HEADS = ("200 OK", "404 Not Found", "302 Found")


class Stranger(http.server.BaseHTTPRequestHandler):
    """Answers each request by the same text."""

    text = ""

    def do_GET(self) -> None:
        self.wfile.write(self.text.encode())

    def log_message(self, *_: object) -> None:
        pass


@pytest.fixture
def stranger(auction: CloseAuction) -> Iterator[type[Stranger]]:
    """Answers at the address where the server should be."""
    server = http.server.ThreadingHTTPServer(("127.0.0.1", 0), Stranger)
    threading.Thread(target=server.serve_forever, daemon=True).start()
    auction.url_port = server.server_port
    yield Stranger
    server.shutdown()
    server.server_close()


@pytest.fixture
def elsewhere() -> Iterator[socket.socket]:
    """The address to which a stranger redirects."""
    with socket.create_server(("127.0.0.1", 0)) as listener:
        listener.settimeout(0.1)
        yield listener


@pytest.mark.parametrize(("head", "page"), itertools.product(HEADS, PAGES))
def test_a_stranger_s_reply_is_no_reply_and_no_redirection_is_followed(
    auction: CloseAuction,
    stranger: type[Stranger],
    elsewhere: socket.socket,
    head: str,
    page: str,
) -> None:
    location = f"http://127.0.0.1:{elsewhere.getsockname()[1]}/v1/status"
    lines = f"\r\nlocation: {location}" if head.startswith("302") else ""
    stranger.text = f"HTTP/1.1 {head}{lines}\r\n\r\n{page}"
    said = auction.yes(1)
    assert (said.status, said.output) == (1, "")
    assert said.errors.startswith("no reply to /v1/status at http://127.0.0.1:")
    with pytest.raises(TimeoutError):
        elsewhere.accept()
