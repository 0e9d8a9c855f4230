"""The desk over HTTP, at a socket file that only nginx's workers and root reach.

nginx has checked the token, the host, and that no other site's page sent the request. The token is
checked here once more.
"""
import http.server
import json
import os
import socketserver
from pathlib import Path
from typing import Any

from .desk import Desk, Reply, refused
from .metrics import Meter

SOCKET = "inner/desk.sock"
MOST_BYTES = 2_097_152
SECONDS = 30  # that a half request may take


class Handler(http.server.BaseHTTPRequestHandler):
    """Answers one request."""

    timeout = SECONDS
    server: "Service"

    def do_GET(self) -> None:
        if self.path == "/metrics":
            self.send(200, self.server.meter.text().encode(), "text/plain; version=0.0.4")
            return
        self.answer({"/desk/state": self.server.desk.page, "/desk/results": self.results}, b"")

    def do_POST(self) -> None:
        length = self.headers.get("content-length", "")
        if not length.isdecimal() or int(length) > MOST_BYTES:
            self.reply(refused("long_body", status=413))
            return
        body = self.rfile.read(int(length))
        if len(body) == int(length):
            acts = {"/desk/act": self.act, "/desk/check": self.check}
            self.answer(acts, body)

    def answer(self, pages: dict[str, Any], body: bytes) -> None:
        """Answers a person of the desk."""
        self.body = body
        who = self.server.desk.people.of(self.headers.get("authorization", ""))
        if who is None:
            self.reply(refused("token", status=401))
        elif self.path not in pages:
            self.reply(refused("no_page", status=404))
        else:
            self.reply(pages[self.path](who))

    def act(self, who: str) -> Reply:
        return self.server.desk.act(who, self.body)

    def check(self, _: str) -> Reply:
        return self.server.desk.check(self.body)

    def results(self, _: str) -> Reply:
        return self.server.desk.results()

    def reply(self, answer: Reply) -> None:
        status, page = answer
        text = json.dumps(page, separators=(",", ":")) + "\n"
        self.send(status, text.encode(), "application/json")

    def send(self, status: int, data: bytes, kind: str) -> None:
        self.send_response(status)
        self.send_header("content-type", kind)
        self.send_header("content-length", str(len(data)))
        self.end_headers()
        self.wfile.write(data)

    def log_message(self, *_: Any) -> None:
        """nginx has the log of requests."""

    def address_string(self) -> str:
        return "nginx"


class Service(socketserver.ThreadingMixIn, socketserver.UnixStreamServer):
    """The desk's server."""

    daemon_threads = True
    request_queue_size = 128

    def __init__(self, folder: Path, desk: Desk, meter: Meter) -> None:
        self.desk, self.meter = desk, meter
        path = folder / SOCKET
        path.unlink(missing_ok=True)  # a killed desk leaves it
        old = os.umask(0o117)
        try:
            super().__init__(str(path), Handler)
        finally:
            os.umask(old)
        if os.geteuid() == 0:  # otherwise nginx's workers are this user
            os.chown(path, -1, path.parent.stat().st_gid)
