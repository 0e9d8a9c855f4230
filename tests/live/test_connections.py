"""Connections of clients that behave well and badly, and the faults of a server's start."""
import resource
import socket
from collections.abc import Callable, Iterator
from pathlib import Path
from typing import Any

import pytest

from tests.lib.http import answered, compact, text_of
from tests.lib.paths import EXAMPLES
from tests.lib.ports import free_port
from tests.lib.runs import Run, run
from tests.lib.server import Server
from tests.lib.waiting import wait_for

SETUP = EXAMPLES / "one_product.json"
MOST_BODY = 1_048_576
X = "X" * 16
BIDS = compact({"bids": [{"price": 100, "product": 0, "quantity": 2}], "round": 1})
PUT = text_of("PUT /v1/me/bids", X, BIDS)
STATUS = text_of("GET /v1/status")
ACCEPTED = (200, b'{"accepted":true,"bids":1,"round":1}')
CUT_SHORT = (400, b'{"code":"cut_short","status":400}')
FIRST_ROUND = (200, b'{"ended":false,"round":1,"version":1}')

StartServer = Callable[..., Server]


def connected(port: int, text: bytes = b"") -> socket.socket:
    """A connection over which a text was sent, as far as the server read it."""
    client = socket.create_connection(("127.0.0.1", port), 10)
    try:
        client.sendall(text)
    except (BrokenPipeError, ConnectionResetError):
        pass  # The server answered, and closed the connection, before all of the text was sent.
    return client


def reset(client: socket.socket) -> None:
    """Ends a connection as a client does that has disappeared."""
    client.setsockopt(socket.SOL_SOCKET, socket.SO_LINGER, b"\1\0\0\0\0\0\0\0")
    client.close()


def reply(client: socket.socket) -> tuple[int, bytes]:
    """The status and the page that arrive over a connection until it ends."""
    text = b""
    with client:
        while piece := client.recv(65_536):
            text += piece
    return answered(text)


# ---- The port


def listening_at(port: int) -> list[str]:
    """The addresses at which a port is open, in hexadecimal, as the system prints them."""
    tables = [Path("/proc/net", name).read_text() for name in ("tcp", "tcp6")]
    rows = [line.split() for table in tables for line in table.splitlines()[1:]]
    addresses = [row[1].split(":") for row in rows if row[3] == "0A"]
    return [address for address, number in addresses if int(number, 16) == port]


def test_the_port_is_open_at_127_0_0_1_only(one_product: StartServer) -> None:
    server = one_product(connections=1)
    assert listening_at(server.port) == ["0100007F"]
    assert reply(connected(server.port, STATUS)) == FIRST_ROUND
    assert server.ended() == (0, "")


# ---- Clients


def test_waiting_clients_are_served_in_turn_though_some_are_gone(one_product: StartServer) -> None:
    server = one_product(connections=6)
    silent = connected(server.port)
    texts = (PUT, PUT[:10], STATUS, STATUS, STATUS)
    whole, cut, status, gone, closed = (connected(server.port, text) for text in texts)
    cut.shutdown(socket.SHUT_WR)
    reset(gone)
    closed.close()
    silent.close()
    assert [reply(client) for client in (whole, cut, status)] == [ACCEPTED, CUT_SHORT, FIRST_ROUND]
    assert server.ended() == (0, "")


LONGEST = BIDS.ljust(MOST_BODY)
TOO_LONG = text_of("PUT /v1/me/bids", X, LONGEST).replace(
    b": %d\r" % MOST_BODY, b": %d\r" % (MOST_BODY + 1)
)
# What a client sends, and what it then does.
BROKEN = {
    "gone-within-a-request": (PUT[:100], "reset"),
    "gone-after-a-request": (PUT, "reset"),
    "takes-no-reply": (PUT, "close"),
    "never-ends-after-the-longest-request": (text_of("PUT /v1/me/bids", X, LONGEST), "wait"),
    "never-ends-after-too-long-a-request": (TOO_LONG, "wait"),
    "never-ends-after-spaces": (b" " * MOST_BODY, "wait"),
    "never-ends-with-spaces-after-a-request": (PUT + b" " * MOST_BODY, "wait"),
}
ENDS: dict[str, Callable[[socket.socket], None]] = {
    "reset": reset,
    "close": socket.socket.close,
    "wait": lambda client: None,
}


@pytest.fixture
def break_connection() -> Iterator[Callable[[int, str], None]]:
    """Connects a client that breaks its connection in this way."""
    clients: list[socket.socket] = []

    def connect(port: int, name: str) -> None:
        text, end = BROKEN[name]
        clients.append(connected(port, text))
        ENDS[end](clients[-1])

    yield connect
    for client in clients:
        client.close()


@pytest.mark.parametrize("name", BROKEN)
def test_the_next_client_is_answered_after_a_broken_connection(
    one_product: StartServer, break_connection: Callable[[int, str], None], name: str
) -> None:
    server = one_product(connections=2)
    break_connection(server.port, name)
    assert reply(connected(server.port, STATUS)) == FIRST_ROUND
    assert server.ended() == (0, "")


def test_a_server_answers_between_broken_connections_of_all_kinds(
    one_product: StartServer, break_connection: Callable[[int, str], None]
) -> None:
    server = one_product(connections=2 * len(BROKEN))
    for name in BROKEN:
        break_connection(server.port, name)
        assert reply(connected(server.port, STATUS)) == FIRST_ROUND, name
    assert server.ended() == (0, "")


# ---- Faults of a start, and of a server. The first fault of a start is reported.


@pytest.fixture
def taken_port() -> Iterator[str]:
    """A port at which another server listens."""
    with socket.create_server(("127.0.0.1", 0)) as taken:
        yield str(taken.getsockname()[1])


def serve(program: Path, setup: Path, port: str, **streams: Any) -> Run:
    """Runs a server of one connection that cannot start."""
    words = ["serve", "--setup", str(setup), "--port", port, "--connections", "1"]
    return run(program, *words, **streams)


@pytest.mark.parametrize(
    ("name", "fault"),
    [
        ("none.json", "file"),
        ("", "input"),
        ("faulty.json", "setup_not_json"),
        ("right.json", "bind"),
    ],
    ids=["no-file", "a-folder", "no-document", "a-port-that-is-in-use"],
)
def test_a_start_reports_its_first_fault(
    program: Path, taken_port: str, tmp_path: Path, name: str, fault: str
) -> None:
    (tmp_path / "faulty.json").write_text("{")
    (tmp_path / "right.json").write_bytes(SETUP.read_bytes())
    assert serve(program, tmp_path / name, taken_port) == Run(1, "", f"fault: {fault}\n")


def test_a_start_reports_an_output_that_cannot_be_written(program: Path) -> None:
    with open("/dev/full", "wb") as full:
        ended = serve(program, SETUP, str(free_port()), stdout=full)
    assert ended == Run(1, "", "fault: output\n")


def test_a_server_that_can_open_no_file_serves_its_connections_and_ends(
    one_product: StartServer,
) -> None:
    server = one_product(connections=2)
    files = Path(f"/proc/{server.child.pid}/fd")
    before = len(list(files.iterdir()))
    client = connected(server.port)
    wait_for("the connection is accepted", lambda: len(list(files.iterdir())) > before, 20)
    resource.prlimit(server.child.pid, resource.RLIMIT_NOFILE, (3, 3))
    client.sendall(STATUS)
    assert reply(client) == FIRST_ROUND
    assert server.ended() == (1, "fault: accept\n")
