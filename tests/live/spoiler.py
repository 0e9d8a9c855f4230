"""A proxy that spoils replies."""
import contextlib
import http.server
import threading
from collections.abc import Iterator

from tests.lib.http import reply_to, text_of


class Spoiler(http.server.ThreadingHTTPServer):
    """Answers with its own replies, or a path with its own pages, while it has some left.

    It passes later requests to the server at `port`.
    """

    def __init__(self, port: int) -> None:
        super().__init__(("127.0.0.1", 0), Spoiling)
        self.port = port
        self.replies: list[bytes] = []
        self.pages: dict[str, list[str]] = {}
        self.url = f"http://127.0.0.1:{self.server_port}"


class Spoiling(http.server.BaseHTTPRequestHandler):
    """One request to a Spoiler."""

    server: Spoiler

    def do_GET(self) -> None:
        body = self.rfile.read(int(self.headers.get("content-length", 0)))
        self.wfile.write(self.reply(body))

    do_PUT = do_GET

    def reply(self, body: bytes) -> bytes:
        """The bytes that the client gets."""
        if self.server.replies:
            return self.server.replies.pop(0)
        if pages := self.server.pages.get(self.path):
            return b"HTTP/1.1 200 OK\r\n\r\n" + pages.pop(0).encode()
        token = self.headers["authorization"].removeprefix("Bearer ")
        return reply_to(self.server.port, text_of(f"{self.command} {self.path}", token, body))

    def log_message(self, *_words: object) -> None:
        """Logs nothing."""


@contextlib.contextmanager
def spoiler_before(port: int) -> Iterator[Spoiler]:
    """Runs a Spoiler in front of the server at a port."""
    with Spoiler(port) as spoiler:
        threading.Thread(target=spoiler.serve_forever, daemon=True).start()
        try:
            yield spoiler
        finally:
            spoiler.shutdown()
