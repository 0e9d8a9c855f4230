"""A relay between `auction close` and a server, which may lose a request or a reply."""
import contextlib
import enum
import socket
import threading
from collections.abc import Callable

from tests.lib.http import reply_to


class Loss(enum.Enum):
    """What the relay loses of a closing."""

    NOTHING = "nothing"
    REQUEST = "the request"
    REPLY = "the reply"
    END_OF_REPLY = "the last bytes of the reply"


class Relay:
    """Passes requests on to a server of this machine, and its replies back.

    `lose` holds for closings only. `closings` has the bodies of closings that came. `look` is
    called for each of them before it is passed on.
    """

    def __init__(self, server_port: int) -> None:
        self.server_port, self.lose = server_port, Loss.NOTHING
        self.closings: list[bytes] = []
        self.look: Callable[[], object] = lambda: None
        self.listener = socket.create_server(("127.0.0.1", 0))
        self.port: int = self.listener.getsockname()[1]
        threading.Thread(target=self.serve, daemon=True).start()

    def serve(self) -> None:
        while True:
            try:
                peer, _ = self.listener.accept()
            except OSError:
                return
            with peer, contextlib.suppress(OSError):
                self.pass_on(peer)

    def pass_on(self, peer: socket.socket) -> None:
        """Passes one request on, and its reply back, unless one of them is to be lost."""
        head, body = request_from(peer)
        lose = Loss.NOTHING
        if head.startswith(b"POST"):
            self.look()
            self.closings.append(body)
            lose = self.lose
        if lose is Loss.REQUEST:
            return
        reply = reply_to(self.server_port, head + b"\r\n\r\n" + body)
        if lose is not Loss.REPLY:
            peer.sendall(reply[:-5] if lose is Loss.END_OF_REPLY else reply)

    def stop(self) -> None:
        with contextlib.suppress(OSError):
            self.listener.shutdown(socket.SHUT_RDWR)
        self.listener.close()


def request_from(peer: socket.socket) -> tuple[bytes, bytes]:
    """The head and the body of a request."""
    text = b""
    while b"\r\n\r\n" not in text:
        text += received(peer)
    head, _, body = text.partition(b"\r\n\r\n")
    lines = [line.split(b":") for line in head.lower().split(b"\r\n")]
    length = sum(int(line[1]) for line in lines if line[0] == b"content-length")
    while len(body) < length:
        body += received(peer)
    return head, body


def received(peer: socket.socket) -> bytes:
    """The next bytes of a client that has not closed its connection."""
    if piece := peer.recv(1 << 20):
        return piece
    raise ConnectionError("the client has closed its connection")
