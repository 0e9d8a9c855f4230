"""Lists of requests that are served with each allocation refused, and what must then be seen."""
import pathlib
import subprocess
from collections.abc import Callable
from typing import NamedTuple

from tests.lib.http import reply_to
from tests.lib.ports import free_port
from tests.lib.server import Server
from tests.memory.requests import GRANULES, HIGHEST, ONE, ONE_AT_HIGHEST, OUT_OF_MEMORY
from tests.memory.requests import REPLY_OUT_OF_MEMORY, SHORT_PUT, close, put, request
from tests.memory.shim import Run, Shim

# Requests whose pages show everything of the auction.
PAGES = [
    *[f"/v1/{page}" for page in ("status", "products", "rounds/1", "rounds/2")],
    *[f"/v1/{page}" for page in ("me", "me/bids", "me/rounds/1", "me/rounds/2")],
]
SHOWN = [
    *[request(f"GET {path}") for path in PAGES[:4]],
    *[request(f"GET {path}", letter) for letter in "XYZ" for path in PAGES[4:]],
    request("GET /v1/results", "O"),
]


class Served(NamedTuple):
    """A set-up, and requests."""

    setup: str
    requests: list[str]


TWO_ROUNDS = Served(
    GRANULES,
    [
        put("X", 1, (1, 2, 100)),
        put("Y", 1, (0, 2, 100)),
        put("Z", 1, (1, 1, 100)),
        close(1, increments=[10, 20]),
        put("Y", 2, (0, 1, 102)),
        put("X", 2, (0, 1, 103)),
        put("X", 2, (0, 1, 104), (1, 1, 106)),
        put("Z", 2, (1, 1, 120)),
        close(2, [[0, 0, 9], [1, 0, 3], [2, 1, 4]], increments=[10, 20]),
    ],
)
SERVED = {
    "the PUT of 147 bytes": Served(ONE, [SHORT_PUT]),
    "a closing refused for the price limit, and one that ends the auction": Served(
        ONE_AT_HIGHEST,
        [
            put("X", 1, (0, 2, HIGHEST)),
            put("Y", 1, (0, 1, HIGHEST)),
            close(1, increment=1),
            put("X", 1, (0, 1, HIGHEST)),
            close(1, increment=1),
        ],
    ),
    "two rounds of sheets, and sheets in place of others": TWO_ROUNDS,
    "requests that are refused": Served(
        ONE,
        [
            request("GET /v1/none"),
            request("DELETE /v1/me"),
            request("GET /v1/me"),
            "GET /v1",
            put("X", 2),
            put("X", 1, (0, 3, 100)),
        ],
    ),
}

Ask = Callable[[str], bytes]


def pages_of(ask: Ask) -> list[bytes]:
    """The pages of an auction, each asked for by `ask`."""
    return [ask(page) for page in SHOWN]


class Seen(NamedTuple):
    """What was seen of a server: the replies, the pages at the end, and refusals.

    `changed` counts the refused requests that changed a page.
    """

    replies: list[bytes]
    pages: list[bytes]
    refusals: int
    changed: int


class Asker:
    """Sends requests to a server, and repeats one that is answered out of memory."""

    def __init__(self, port: int, connections: int) -> None:
        self.port, self.left, self.refusals = port, connections, 0

    def once(self, text: str) -> bytes:
        """Sends a request over one of the server's connections. Returns the reply."""
        self.left -= 1
        return reply_to(self.port, text.encode())

    def at_last(self, text: str) -> bytes:
        """The reply to a request, which is repeated once if the server is out of memory."""
        reply = self.once(text)
        if reply != REPLY_OUT_OF_MEMORY:
            return reply
        self.refusals += 1
        return self.once(text)


def is_ready(child: subprocess.Popen[bytes]) -> bool:
    """Whether a server starts and listens. The line about its journal comes before `ready`."""
    assert child.stdout is not None
    line = child.stdout.readline()
    return bool(child.stdout.readline() if line.startswith(b"journal ") else line)


def pages_before(
    program: pathlib.Path, setup: pathlib.Path, requests: list[str]
) -> list[list[bytes]]:
    """The pages of an auction before each request."""
    found = []
    with Server(program, setup) as server:
        for text in requests:
            found.append(pages_of(lambda page: reply_to(server.port, page.encode())))
            reply_to(server.port, text.encode())
    return found


def pages_after(program: pathlib.Path, setup: pathlib.Path, journal: pathlib.Path) -> list[bytes]:
    """The pages of a server that is started again with a journal."""
    with Server(program, setup, journal).ready() as server:
        return pages_of(lambda page: reply_to(server.port, page.encode()))


class Trial:
    """A set-up's server, which is started with an allocation refused, and the requests to it."""

    def __init__(self, shim: Shim, folder: pathlib.Path, served: Served) -> None:
        self.shim, self.folder, self.requests = shim, folder, served.requests
        self.setup = folder / "setup.json"
        self.setup.write_text(served.setup)
        self.befores = pages_before(shim.program, self.setup, served.requests)

    def serve(self, refused: int, journal: pathlib.Path | None = None) -> Run[Seen | None]:
        """Serves the requests with an allocation refused. Sees None if the server never listens."""
        connections = len(self.requests) + 2 * len(SHOWN) + 2
        port = free_port()
        words = ["serve", "--setup", str(self.setup), "--port", str(port)]
        words += ["--connections", str(connections)]
        words += [] if journal is None else ["--journal", str(journal)]

        def ask(child: subprocess.Popen[bytes]) -> Seen | None:
            return self.ask(Asker(port, connections)) if is_ready(child) else None

        found = self.shim.run(words, refused, ask)
        # Another process took the port.
        return self.serve(refused, journal) if found.end[2] == b"fault: bind\n" else found

    def ask(self, asker: Asker) -> Seen:
        """Sends the requests, and compares the pages after one that is answered out of memory."""
        replies, changed = [], 0
        for text, before in zip(self.requests, self.befores):
            reply = asker.once(text)
            if reply == REPLY_OUT_OF_MEMORY:
                asker.refusals += 1
                changed += pages_of(asker.at_last) != before
                reply = asker.once(text)
            replies.append(reply)
        last = pages_of(asker.at_last)
        while asker.left:
            asker.refusals += asker.once(SHOWN[0]) == REPLY_OUT_OF_MEMORY
        return Seen(replies, last, asker.refusals, changed)

    def serve_with_journal(self, refused: int) -> Run[Seen | None]:
        """Like serve, with a journal. Counts a page that differs after a restart as changed."""
        journal = self.folder / f"{refused}.journal"
        run = self.serve(refused, journal)
        again = pages_after(self.shim.program, self.setup, journal)
        journal.unlink()
        status, output, error = run.end
        rest = [line for line in output.splitlines() if not line.startswith(b"closed ")]
        end = (status, b"\n".join(rest), error)
        if run.done is None:
            return run._replace(end=end if again == self.befores[0] else ("changed", *end[1:]))
        changed = run.done.changed + (again != run.done.pages)
        return run._replace(end=end, done=run.done._replace(changed=changed))


def is_served_but_once(run: Run[Seen | None], wanted: Run[Seen | None]) -> bool:
    """Whether the server ran out of memory once, at its start or in one reply, and no more."""
    if run.done is None or wanted.done is None:
        return run.end == OUT_OF_MEMORY
    return run.end == (0, b"", b"") and run.done == wanted.done._replace(refusals=1, changed=0)
