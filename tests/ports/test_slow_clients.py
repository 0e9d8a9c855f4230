"""Which clients block the server at its own port, and that none of them blocks nginx.

Each client does one thing and then nothing. Meanwhile, and after it has gone, another bidder asks
for its account.
"""
import concurrent.futures
import json
import resource
import socket
import subprocess
import time
from collections.abc import Callable, Iterator

import pytest

from tests.lib.setups import OPERATOR
from tests.lib.site import Site
from tests.lib.waiting import wait_for
from tests.ports.port import BLOCKED, LATE, Port, account, connections_at, head, token_of

pytestmark = pytest.mark.needs("nginx", "openssl")

X = token_of(0)
WITHOUT_CR = b"GET /v1/status HTTP/1.1\nhost: localhost\n\n"
# What a client sends, and whether it then blocks the server.
CLIENTS = {
    "says nothing": (b"", True),
    "sends half a head": (b"GET /v1/st", True),
    "ends lines without CR": (WITHOUT_CR, True),
    "sends half a sheet": (head("PUT", "/v1/me/bids", X, "content-length: 100") + b"{", True),
    "does not read the products": (head("GET", "/v1/products"), False),
    "does not read the results": (head("GET", "/v1/results", OPERATOR), True),
}


def small_client(port: Port, text: bytes) -> socket.socket:
    """A client that sends this, and reads nothing."""
    peer = port.connected(is_small=True)
    peer.sendall(text)
    time.sleep(0.3)
    return peer


@pytest.mark.parametrize("text, blocks", CLIENTS.values(), ids=CLIENTS)
def test_at_the_servers_port_a_client_that(
    straight: Port, others: Iterator[int], text: bytes, blocks: bool
) -> None:
    with small_client(straight, text):
        assert straight.is_blocked(others, BLOCKED if blocks else LATE) == blocks
    assert not straight.is_blocked(others, LATE), "after it has gone"


@pytest.mark.parametrize("text", [text for text, _ in CLIENTS.values()], ids=CLIENTS)
def test_nginx_is_not_blocked_by_a_client_that(
    site: Site, behind: Port, others: Iterator[int], text: bytes
) -> None:
    port = Port(site.inside) if b"/v1/results" in text else behind
    with small_client(port, text):
        assert not behind.is_blocked(others, LATE)
    assert not behind.is_blocked(others, LATE), "after it has gone"


@pytest.mark.needs("curl")
def test_https_at_the_servers_port_blocks_it_until_the_client_gives_up(
    straight: Port, others: Iterator[int]
) -> None:
    begun, url = time.monotonic(), f"https://127.0.0.1:{straight.number}/v1/status"
    typed = subprocess.Popen(["curl", "-sk", "-m", "3", url], stdout=subprocess.DEVNULL)
    wait_for(
        "curl is connected",
        lambda: connections_at(straight.number) or typed.poll() is not None,
        20,
    )
    assert not straight.is_blocked(others, 10)
    assert time.monotonic() - begun > 2.9
    assert typed.wait(10) == 28, "curl has no reply"


# ---- A client that expects `100 Continue` before it sends its body


def sent_with_expect(
    site: Site, others: Iterator[int], url: str, number: int
) -> tuple[float, float]:
    """The seconds that a sheet with Expect takes, and those until another bidder is answered."""
    body = site.folder / "body"
    body.write_text(json.dumps({"bids": [], "round": 1}) + " " * 1_000_000)
    lines = (f"authorization: Bearer {X}", "expect: 100-continue")
    command = ["curl", "-sS", "--http1.1", "-m", "10", "--cacert", str(site.folder / "cert.pem")]
    command += [word for line in lines for word in ("-H", line)]
    command += ["-T", str(body), "-w", "\n%{time_total}", f"{url}/v1/me/bids"]
    begun, sends = time.monotonic(), subprocess.Popen(command, stdout=subprocess.PIPE, text=True)
    wait_for("curl is connected", lambda: connections_at(number) or sends.poll() is not None, 20)
    assert not Port(site.server_port).is_blocked(others, 10)
    other = time.monotonic() - begun
    page, seconds = sends.communicate(timeout=20)[0].splitlines()
    assert json.loads(page).get("accepted"), page
    return float(seconds), other


@pytest.mark.needs("curl")
def test_expect_at_the_servers_port_blocks_it_for_a_second(
    site: Site, straight: Port, others: Iterator[int]
) -> None:
    url = f"http://127.0.0.1:{straight.number}"
    assert min(sent_with_expect(site, others, url, straight.number)) > 0.9


@pytest.mark.needs("curl")
def test_expect_at_nginx_blocks_nobody(site: Site, behind: Port, others: Iterator[int]) -> None:
    """It has ten tries: on a busy machine each may take its second for another reason."""
    url = f"https://localhost:{behind.number}"
    assert any(max(sent_with_expect(site, others, url, behind.number)) < 0.9 for _ in range(10))


# ---- Many slow clients

SLOW = 100
KINDS = {
    "slow heads": (["-H"], "/v1/status"),
    "slow bodies": (["-B", "-s", "100000"], "/v1/me/bids"),
    "slow readers": (["-X", "-w", "10", "-y", "20", "-n", "5", "-z", "32"], "/v1/products"),
}


@pytest.fixture
def slow_clients() -> Iterator[Callable[[str, Port], None]]:
    """Starts 100 slow clients of a kind, and waits until half of them are connected."""
    started: list[subprocess.Popen[bytes]] = []

    def start(kind: str, port: Port) -> None:
        words, path = KINDS[kind]
        url = f"{'https' if port.has_tls else 'http'}://127.0.0.1:{port.number}{path}"
        common = ["-c", str(SLOW), "-r", str(SLOW), "-i", "1", "-l", "30", "-p", "2", "-u", url]
        quiet = subprocess.DEVNULL
        command = ["slowhttptest", *words, *common]
        started.append(subprocess.Popen(command, stdin=quiet, stdout=quiet, stderr=quiet))
        time.sleep(1.5)
        wait_for(f"half of {kind}", lambda: connections_at(port.number) >= SLOW // 2, 30)

    yield start
    for one in started:
        one.terminate()
        one.wait(10)


@pytest.mark.needs("slowhttptest")
def test_100_slow_heads_block_the_server(
    straight: Port, others: Iterator[int], slow_clients: Callable[[str, Port], None]
) -> None:
    slow_clients("slow heads", straight)
    assert straight.is_blocked(others, BLOCKED)


@pytest.mark.needs("slowhttptest")
@pytest.mark.parametrize("kind", KINDS)
def test_nginx_is_not_blocked_by_100(
    behind: Port, others: Iterator[int], slow_clients: Callable[[str, Port], None], kind: str
) -> None:
    slow_clients(kind, behind)
    assert not any(behind.is_blocked(others, LATE) for _ in range(20))


def test_4200_silent_connections_do_not_block_nginx(behind: Port, others: Iterator[int]) -> None:
    """nginx has 4,096 connections, and ends some of these."""
    count, before = 4_200, resource.getrlimit(resource.RLIMIT_NOFILE)
    if before[1] != resource.RLIM_INFINITY and before[1] < count + 1_000:
        pytest.skip("needs 5,200 open files")
    # This process has other files open too, such as the marks of ports.
    resource.setrlimit(resource.RLIMIT_NOFILE, (max(before[0], count + 1_000), before[1]))
    silent = []
    try:
        for _ in range(count):
            silent.append(socket.create_connection(("127.0.0.1", behind.number), 10))
        assert not behind.is_blocked(others, LATE)
    finally:
        for peer in silent:
            peer.close()
        resource.setrlimit(resource.RLIMIT_NOFILE, before)


def test_250_clients_that_wait_for_one_are_all_answered(straight: Port) -> None:
    silent = straight.connected()
    with concurrent.futures.ThreadPoolExecutor(250) as pool:
        asked = [pool.submit(straight.reply, account(number), 30) for number in range(250)]
        time.sleep(0.5)
        silent.close()
        assert all(future.result() for future in asked)
