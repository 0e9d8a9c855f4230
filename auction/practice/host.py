"""Hosts practices for many people, each in a game of his own, within bounds."""
import collections
import http.server
import ipaddress
import pathlib
import random
import re
import secrets
import shutil
import signal
import socket
import ssl
import threading
import time
from typing import Any, NamedTuple

from auction.installed import installed
from auction.practice import PracticeFault, apart, words
from auction.practice.hosted import Bounds, Hosted, Place
from auction.practice.local import ENDINGS, folder_of
from auction.practice.options import Options
from auction.practice.pages import KINDS, Pages
from auction.practice.places import Limits, Verdict, Why, free_at, verdict, why
from auction.practice.server import program_of

GAME = re.compile(r"/g/(?P<key>[A-Za-z0-9_-]{22})(?P<rest>/.*)")
REMEMBERED = 1_000  # games that have ended, of which a page says why
OF_A_GAME, OTHERS = 8, 32  # connections
QUIET = 15  # seconds after which a connection that sends nothing is closed
HTML = KINDS[".html"]


class Hosting(NamedTuple):
    """What is hosted: the games, their bounds, and the address."""

    asked: Options
    limits: Limits
    bounds: Bounds
    certificate: pathlib.Path | None = None
    key: pathlib.Path | None = None

    @property
    def address(self) -> str:
        """This machine only, or all addresses if there is a certificate."""
        return "" if self.certificate else "127.0.0.1"


def network_of(address: str) -> str:
    """Whom an address counts for: one IPv4 address, or the first 64 bits of an IPv6 address."""
    found = ipaddress.ip_address(address.partition("%")[0])
    if isinstance(found, ipaddress.IPv6Address) and found.ipv4_mapped:
        found = found.ipv4_mapped
    return str(ipaddress.ip_network((found, 64 if found.version == 6 else 32), strict=False))


class Host(http.server.ThreadingHTTPServer):
    """Serves all games at one address."""

    daemon_threads = True
    request_queue_size = 128

    def __init__(self, hosting: Hosting, program: pathlib.Path, folder: pathlib.Path) -> None:
        super().__init__((hosting.address, hosting.asked.port), Visitor)
        if hosting.certificate and hosting.key:
            context = ssl.SSLContext(ssl.PROTOCOL_TLS_SERVER)
            context.load_cert_chain(hosting.certificate, hosting.key)
            # A handshake is made in the thread of its connection, which has a timeout.
            self.socket = context.wrap_socket(self.socket, True, do_handshake_on_connect=False)
        self.hosting, self.program, self.folder = hosting, program, folder
        self.games: dict[str, Hosted] = {}
        self.gone: collections.OrderedDict[str, Why] = collections.OrderedDict()
        self.lock, self.count = threading.Lock(), 0
        first = hosting.asked.port + 1
        self.ports = set(range(first, first + hosting.limits.games))
        self.connections = threading.Semaphore(OF_A_GAME * hosting.limits.games + OTHERS)

    # ---- Games

    def begin(self, network: str) -> Hosted | Verdict:
        """Begins a game, or says why not. A PracticeFault if its server does not start."""
        with self.lock:
            seen = [game.seen() for game in self.games.values()]
            found = verdict(seen, network, self.hosting.limits)
            if found is not Verdict.OPEN:
                return found
            self.count += 1
            key, port = secrets.token_urlsafe(16), self.ports.pop()
            game = Hosted(Place(key, self.count, port, self.folder / key), network)
            self.games[key] = game
        try:
            game.begin(self.hosting.asked, self.program, self.hosting.bounds)
        except (OSError, PracticeFault):
            game.failed = True
            raise
        return game

    def sweep(self, now: float) -> None:
        """Ends the games that are due."""
        with self.lock:
            due = [
                (game, reason)
                for game in self.games.values()
                if (reason := why(game.seen(), now, self.hosting.limits))
            ]
        for game, reason in due:
            self.end(game, reason)

    def end(self, game: Hosted, reason: Why) -> None:
        """Ends a game. Its place is free once its server has ended."""
        game.stop()
        with self.lock:
            del self.games[game.place.key]
            self.ports.add(game.place.port)
            self.gone[game.place.key] = reason
            while len(self.gone) > REMEMBERED:
                self.gone.popitem(last=False)

    def sweep_on(self) -> None:
        """Looks each second, for good."""
        while True:
            self.sweep(time.monotonic())
            time.sleep(1)

    def stop(self) -> None:
        """Ends all games."""
        for game in list(self.games.values()):
            game.stop()

    # ---- Connections

    def process_request(self, request: Any, client_address: Any) -> None:
        """Serves a connection in a thread of its own, or closes it if there are too many."""
        if not self.connections.acquire(blocking=False):
            self.shutdown_request(request)
            return
        super().process_request(request, client_address)

    def process_request_thread(self, request: Any, client_address: Any) -> None:
        try:
            super().process_request_thread(request, client_address)
        finally:
            self.connections.release()

    def handle_error(self, request: Any, client_address: Any) -> None:
        """A connection that ends in the middle is no fault of the host's."""


class Visitor(Pages):
    """One connection of a browser."""

    timeout = QUIET
    server: Host

    def do_GET(self) -> None:
        path = self.path.partition("?")[0]
        if found := GAME.fullmatch(path):
            self.visit(found["key"], found["rest"])
        elif self.command == "PUT":
            self.refuse(405, "method")
        elif path == "/":
            limits = self.server.hosting.limits
            self.answer(200, HTML, words.welcome(len(self.server.games), limits))
        elif path in ("/style.css", "/icon.svg"):
            self.show(installed("web") / path.removeprefix("/"))
        else:
            self.refuse(404, "no_page")

    do_HEAD = do_PUT = do_GET

    def do_POST(self) -> None:
        """Begins a game, if this host's own page asks for it."""
        self.close_connection = True  # The body of this request may still be unread.
        if self.path != "/games":
            self.refuse(404, "no_page")
        elif self.headers.get("sec-fetch-site", "none") not in ("none", "same-origin"):
            self.refuse(403, "cross_site")
        else:
            self.begin()

    def begin(self) -> None:
        host = self.server
        try:
            game = host.begin(network_of(str(self.client_address[0])))
        except (OSError, PracticeFault):
            self.answer(503, HTML, words.failed())
            return
        if isinstance(game, Verdict):
            free = free_at([one.seen() for one in host.games.values()], host.hosting.limits)
            wait = None if free is None else free - time.monotonic()
            self.answer(503, HTML, words.refused(game, wait))
        else:
            self.answer(303, HTML, b"", f"/g/{game.place.key}/begin.html")

    def visit(self, key: str, path: str) -> None:
        """Serves a path of a game."""
        game = self.server.games.get(key)
        if game is None or game.server is None:
            is_page = path == "/" or path.endswith(".html")
            if is_page:
                self.answer(404, HTML, words.ended(self.server.gone.get(key)))
            else:
                self.refuse(404, "no_page")
            return
        game.note()
        if path == "/begin.html":
            self.answer(200, HTML, words.begun(self.server.hosting.limits))
        else:
            self.play(path, game.server, game.longest, game.note_bids)


def host(hosting: Hosting) -> None:
    """Hosts games until it is stopped."""
    around = apart.around(hosting.asked.port, hosting.limits.games, hosting.asked.setup)
    if fault := apart.shared(around):
        raise PracticeFault(fault)
    if not shutil.which("prlimit"):
        raise PracticeFault("--host needs prlimit of util-linux")
    hosting.asked.game(random.Random(hosting.asked.seed))  # or a fault
    program = program_of(hosting.asked.program)
    folder = folder_of(hosting.asked.folder)
    try:
        server = Host(hosting, program, folder)
    except OSError as fault:
        raise PracticeFault(f"port {hosting.asked.port}: {fault}") from None
    serve(server, "https" if hosting.certificate else "http")


def serve(server: Host, scheme: str) -> None:
    """Serves until a signal, then ends all games."""
    for ending in ENDINGS:
        signal.signal(ending, signal.default_int_handler)
    name = socket.gethostname() if scheme == "https" else "127.0.0.1"
    places = f"{server.hosting.limits.games} games at once"
    print(f"Practice at {scheme}://{name}:{server.hosting.asked.port}/ for {places}.", flush=True)
    threading.Thread(target=server.sweep_on, daemon=True).start()
    try:
        server.serve_forever()
    except KeyboardInterrupt:
        print("The practice is over.")
    finally:
        for ending in ENDINGS:
            signal.signal(ending, signal.SIG_IGN)
        server.stop()
        shutil.rmtree(server.folder, ignore_errors=True)
