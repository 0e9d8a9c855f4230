"""Serves a browser: the pages for bidders and the public, a bidder's requests, and published files.

The handlers here serve one game. What they share with those of many games is `Pages`.
"""
import http.client
import http.server
import json
import pathlib
import re
from collections.abc import Callable

from auction.installed import installed
from auction.practice.server import Server

KINDS = {
    ".html": "text/html; charset=utf-8",
    ".css": "text/css; charset=utf-8",
    ".js": "text/javascript; charset=utf-8",
    ".json": "application/json",
    ".svg": "image/svg+xml",
}
PAGES = re.compile(r"/(?!operator)[a-z_]+\.(html|css|js|svg)")
PUBLISHED = re.compile(r"/public/(timetable|announcements|winners|rounds/[1-9][0-9]*)\.json")
REQUESTS = re.compile(r"/v1/(status|products|me|me/bids|(me/)?rounds/[1-9][0-9]*)")
LONGEST = 1_048_576  # bytes of a body, as for the server


class Pages(http.server.BaseHTTPRequestHandler):
    """One connection of a browser."""

    protocol_version = "HTTP/1.1"
    server_version, sys_version = "practice", ""

    def play(
        self,
        path: str,
        auction: Server,
        longest: int = LONGEST,
        accepted: Callable[[], None] = lambda: None,
    ) -> None:
        """Serves a path of a game: a page, a published file, or its server's reply.

        Calls `accepted` before it answers that bids were accepted.
        """
        path = "/index.html" if path == "/" else path
        if REQUESTS.fullmatch(path):
            self.pass_on(path, auction, longest, accepted)
        elif self.command == "PUT":
            self.refuse(405, "method")
        elif PUBLISHED.fullmatch(path):
            self.show(auction.folder / path[1:])
        elif PAGES.fullmatch(path):
            self.show(installed("web") / path[1:])
        else:
            self.refuse(404, "no_page")

    def show(self, file: pathlib.Path) -> None:
        """Answers with a file, or with 404 if it does not exist."""
        try:
            self.answer(200, KINDS[file.suffix], file.read_bytes())
        except FileNotFoundError:
            self.refuse(404, "no_page")

    def pass_on(
        self, path: str, auction: Server, longest: int, accepted: Callable[[], None]
    ) -> None:
        """Sends a request to the server, and its reply to the browser."""
        length = self.headers.get("content-length", "0")
        if not length.isdecimal() or int(length) > longest:
            self.refuse(413, "long_body")
            return
        body = self.rfile.read(int(length)) if int(length) else None
        try:
            status, page = auction.send(self.command, path, self.headers.get("authorization"), body)
        except (OSError, http.client.HTTPException):
            self.refuse(502, "proxy")
            return
        if self.command == "PUT" and status == 200:
            accepted()
        self.answer(status, KINDS[".json"], page)

    def refuse(self, status: int, code: str) -> None:
        """Answers with a refusal, and closes the connection."""
        self.close_connection = True  # The body of this request may still be unread.
        page = json.dumps({"code": code, "status": status}).encode()
        self.answer(status, KINDS[".json"], page)

    def answer(self, status: int, kind: str, page: bytes, location: str = "") -> None:
        """Answers with a page."""
        self.send_response(status)
        for name, value in (
            ("content-type", kind),
            ("content-length", str(len(page))),
            ("cache-control", "no-store"),
            ("content-security-policy", "default-src 'self'"),
            ("x-content-type-options", "nosniff"),
            *([("location", location)] if location else []),
        ):
            self.send_header(name, value)
        self.end_headers()
        if self.command != "HEAD":
            self.wfile.write(page)

    def log_message(self, *_: object) -> None:
        """Prints nothing: the terminal is for the player."""


class Desk(http.server.ThreadingHTTPServer):
    """Serves one game on 127.0.0.1 only, and no page of the operator."""

    daemon_threads = True

    def __init__(self, port: int, auction: Server) -> None:
        super().__init__(("127.0.0.1", port), Visit)
        self.auction = auction


class Visit(Pages):
    """One connection of the player's browser."""

    server: Desk

    def do_GET(self) -> None:
        """Serves the game. A page from elsewhere asks here by another name for this machine."""
        if self.headers.get("host", "").rpartition(":")[0] not in ("127.0.0.1", "localhost"):
            self.refuse(400, "bad_head")
        else:
            self.play(self.path.partition("?")[0], self.server.auction)

    do_HEAD = do_PUT = do_GET
