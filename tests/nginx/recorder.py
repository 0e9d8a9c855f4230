"""A stand-in for the server, which records each request that nginx hands on."""
import dataclasses
import json
import re
import socket
import threading
import time

PRIVATE = "0NLY-F0R-"
BIG = 3_000_000
PAGES = re.compile(
    r"/v1/(status|products|rounds/\d+|me|me/bids|me/rounds/\d+|close|results)(\?.*)?"
)


@dataclasses.dataclass
class Request:
    """A request that came over a connection of its own.

    `took_in` are the seconds until it was whole. Once nginx has taken the reply, `rest` has what
    came after the request, and `took` the seconds.
    """

    head: str
    body: bytes
    took_in: float
    rest: bytes | None = None
    took: float = 0.0

    @property
    def line(self) -> str:
        """Its method and path."""
        return self.head.split("\r\n")[0].rpartition(" ")[0]

    @property
    def names(self) -> list[str]:
        """The names of its header lines, in small letters."""
        return [line.split(":")[0].lower() for line in self.head.split("\r\n")[1:]]


class Recorder:
    """Listens on a port. `closed` is the last closed round.

    Each answer takes `delay` seconds, and waits while `may_go` is not set. Each page has `size`
    bytes more.
    """

    def __init__(self, port: int) -> None:
        self.port, self.lock, self.may_go = port, threading.Lock(), threading.Event()
        self.reset()
        self.listen()

    def listen(self) -> None:
        """Listens, also after a stop."""
        self.listener = socket.create_server(("127.0.0.1", self.port), backlog=128)
        threading.Thread(target=self.serve, args=(self.listener,), daemon=True).start()

    def reset(self) -> None:
        """Begins again: no request came, two rounds are closed, and each answer comes at once."""
        self.seen: list[Request] = []
        self.closed, self.delay, self.size = 2, 0.0, 0
        self.may_go.set()

    def serve(self, listener: socket.socket) -> None:
        """Answers each connection in a thread of its own."""
        while True:
            try:
                peer, _ = listener.accept()
            except OSError:
                return
            threading.Thread(target=self.answer, args=(peer,), daemon=True).start()

    def answer(self, peer: socket.socket) -> None:
        """Records the request of a connection, answers it, and waits for the connection's end."""
        begun = time.monotonic()
        with peer:
            peer.settimeout(20)
            head, body = request_of(peer)
            request = Request(head.decode("latin1"), body, time.monotonic() - begun)
            with self.lock:
                self.seen.append(request)
                number = len(self.seen)
            time.sleep(self.delay)
            self.may_go.wait(20)
            status, page = self.page_for(request.head, number)
            lines = (
                f"HTTP/1.1 {status} X",
                "connection: close",
                f"content-length: {len(page)}",
                "content-type: application/json",
            )
            peer.sendall("\r\n".join((*lines, "", "")).encode() + page)
            peer.shutdown(socket.SHUT_WR)
            request.rest = peer.recv(65_536)  # returns as soon as nginx has taken the reply
            request.took = time.monotonic() - begun

    def page_for(self, head: str, number: int) -> tuple[int, bytes]:
        """The status and the page. A page has its request's number, and a private one the token."""
        method, path, _ = head.split("\r\n")[0].split(" ")
        token = re.search(r"(?i)\r\nauthorization: *bearer *(\S+)", head)
        page = {"number": number, "at": time.time(), "method": method, "path": path}
        if path.startswith("/v1/me") or path in ("/v1/close", "/v1/results"):
            page["private"] = PRIVATE + (token[1] if token else "")
        if path == "/v1/me/rounds/9":
            page["big"] = "x" * BIG
        if self.size:
            page["more"] = "x" * self.size
        if not PAGES.fullmatch(path):
            return 404, b'{"code":"no_page","status":404}'
        asked = re.fullmatch(r"/v1/rounds/(\d+)", path)
        if asked and int(asked[1]) > self.closed:
            return 404, b'{"code":"no_round","status":404}'
        return 200, json.dumps(page).encode()

    def lines(self) -> list[str]:
        """The method and path of each request."""
        return [request.line for request in list(self.seen)]

    def count(self, line: str) -> int:
        """The number of requests with this method and path."""
        return self.lines().count(line)

    def stop(self) -> None:
        """Stops listening."""
        try:
            self.listener.shutdown(socket.SHUT_RDWR)
        except OSError:
            pass
        self.listener.close()


def request_of(peer: socket.socket) -> tuple[bytes, bytes]:
    """The head and the body of a request, and what came with them."""
    text, head, length = b"", b"", 0
    while not head or len(text) < len(head) + 4 + length:
        piece = peer.recv(65_536)
        if not piece:
            break
        text += piece
        if not head and b"\r\n\r\n" in text:
            head = text.partition(b"\r\n\r\n")[0]
            found = re.search(rb"(?i)\r\ncontent-length: *(\d+)", head)
            length = int(found[1]) if found else 0
    return head, text[len(head) + 4 :]
