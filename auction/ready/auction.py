"""An auction's folder, with the ports of its nginx.conf, and requests to them."""
import dataclasses
import functools
import http.client
import json
import re
import ssl
from pathlib import Path
from typing import Any

SECONDS = 10


@dataclasses.dataclass(frozen=True)
class Auction:
    """nginx's folder, the set-up's file and the server's journal.

    `host` is the name that bidders use, and `space` the bytes that the journal may need.
    """

    folder: Path
    setup_file: Path
    journal: Path
    host: str
    space: int

    @functools.cached_property
    def setup(self) -> dict[str, Any]:
        return json.loads(self.setup_file.read_bytes())

    @functools.cached_property
    def configuration(self) -> str:
        return (self.folder / "nginx.conf").read_text(encoding="utf-8")

    def port(self, pattern: str) -> int:
        """A port of nginx.conf."""
        if not (found := re.search(pattern, self.configuration)):
            raise ValueError(f"nginx.conf has no line for {pattern!r}")
        return int(found[1])

    @property
    def server_port(self) -> int:
        return self.port(r"upstream auction \{\s*server 127\.0\.0\.1:(\d+);")

    @property
    def bidders_port(self) -> int:
        return self.port(r"listen (?:[0-9.]+:)?(\d+) ssl")

    @property
    def operators_port(self) -> int:
        return self.port(r"listen 127\.0\.0\.1:(\d+) default_server;")

    @property
    def worker(self) -> str:
        """The user of nginx's workers."""
        found = re.search(r"(?m)^user\s+(\S+?)\s*;", self.configuration)
        return found[1] if found else ""

    def ask(self, port: int, path: str, token: str = "") -> tuple[int, bytes]:
        """The status and the page of a request to a port of this machine."""
        kind: type[http.client.HTTPConnection] = http.client.HTTPConnection
        words: dict[str, Any] = {"timeout": SECONDS}
        if port == self.bidders_port:
            kind, words["context"] = http.client.HTTPSConnection, ssl._create_unverified_context()
        connection = kind("127.0.0.1", port, **words)
        try:
            connection.request(
                "GET", path, headers={"authorization": f"Bearer {token}"} if token else {}
            )
            reply = connection.getresponse()
            return reply.status, reply.read()
        finally:
            connection.close()

    def page(self, port: int, path: str, token: str = "") -> Any:
        """A page that must come with status 200."""
        status, page = self.ask(port, path, token)
        if status != 200:
            raise ValueError(f"{path} at port {port} is {status} {page[:80].decode('latin1')}")
        return json.loads(page)
