"""Requests to a server on this machine, each over one connection, without TLS."""
import json
import socket

SECONDS = 60


def compact(value: object) -> bytes:
    """A value as JSON without spaces, with its keys in their order."""
    return json.dumps(value, separators=(",", ":")).encode()


def text_of(line: str, token: str = "", body: bytes | None = None, *lines: str) -> bytes:
    """The bytes of a request: its method and path, its sender's token, its body, and further header
    lines.
    """
    head = [f"{line} HTTP/1.1", *lines]
    head += [f"authorization: Bearer {token}"] if token else []
    head += [f"content-length: {len(body)}"] if body is not None else []
    return "\r\n".join([*head, "", ""]).encode() + (body or b"")


def reply_to(port: int, text: bytes, cut: int | None = None, seconds: float = SECONDS) -> bytes:
    """Sends a request, and returns the bytes of the reply.

    If `cut`, the request is sent in two pieces. Then the writing side is shut. A server answers as
    soon as it knows its answer. If bytes are then still unread, the connection is reset after the
    reply.
    """
    reply = b""
    with socket.create_connection(("127.0.0.1", port), seconds) as client:
        try:
            client.sendall(text[:cut])
            if cut is not None:
                client.sendall(text[cut:])
            client.shutdown(socket.SHUT_WR)
        except OSError:
            pass
        try:
            while piece := client.recv(65_536):
                reply += piece
        except OSError:
            pass
    return reply


def answered(reply: bytes) -> tuple[int, bytes]:
    """The status and the page of a reply."""
    head, _, page = reply.partition(b"\r\n\r\n")
    return int(head.split()[1]), page


def answer_to(port: int, text: bytes) -> tuple[int, bytes]:
    """Sends a request, and returns the status and the page of the reply."""
    return answered(reply_to(port, text))
