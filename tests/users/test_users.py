"""What other users of the machine can do to server and nginx, with services/clock-auction.nft.

The tests run in a network of their own, so the machine's firewall does not change.
"""
import json
import os
import pathlib
import pwd
import re
import socket
import subprocess
import time
from collections.abc import Iterator

import pytest

from auction.conductor.settings import Folders, group_of_workers
from tests.lib.http import text_of
from tests.lib.paths import EXAMPLES, TOP
from tests.lib.site import Site, running
from tests.lib.tls import Client
from tests.lib.waiting import wait_for
from tests.users.user import AsUser, as_user, own_network

NGINX, SERVER, OTHER = "www-data", "daemon", "nobody"  # every Debian has them
OPERATOR, X, Y = "OPERATOROPERATOR", "X" * 16, "Y" * 16
SHEET = b'{"bids":[{"price":100,"product":0,"quantity":2}],"round":1}'
# The limits of clock-auction.nft, and how many connections come at once.
BURST, A_SECOND, KNOCKS = 500, 50, 700
IPV6_FREEBIND = (
    78  # any address of a network that is routed to this machine; Python has no name for it
)

pytestmark = [pytest.mark.root, pytest.mark.needs("nginx", "openssl", "nft", "ip")]


@pytest.fixture(scope="module")
def site(program: pathlib.Path) -> Iterator[Site]:
    """Server and nginx, with the rules of clock-auction.nft."""
    setup = json.loads((EXAMPLES / "two_products.json").read_text())
    with own_network(), running(program, setup, worker=NGINX) as started:
        load_rules(started)
        yield started


def load_rules(site: Site) -> None:
    """Loads the rules twice, as a start and a restart do."""
    text = site.with_ports((TOP / "services/clock-auction.nft").read_text())
    text = re.sub(r"\bauction-nginx\b", NGINX, re.sub(r"\bauction-server\b", SERVER, text))
    (site.folder / "rules.nft").write_text(text)
    for _ in range(2):
        subprocess.run(["nft", "-f", site.folder / "rules.nft"], check=True)


# ---- Who connects


def connects(port: int, seconds: float = 3) -> bool:
    """Whether a connection to a port of this machine is established."""
    with socket.socket() as peer:
        peer.settimeout(seconds)
        return peer.connect_ex(("127.0.0.1", port)) == 0


@pytest.mark.parametrize("user", ["root", NGINX])
def test_root_and_nginx_connect_to_the_server(site: Site, user: str) -> None:
    assert as_user(user, lambda: connects(site.server_port)) is True


@pytest.mark.parametrize("user", [SERVER, OTHER, "bin"])
def test_no_other_user_connects_to_the_server(site: Site, user: str) -> None:
    assert as_user(user, lambda: connects(site.server_port)) is False


def test_anyone_connects_to_nginx(site: Site) -> None:
    assert as_user(OTHER, lambda: connects(site.outside)) is True


def enters(file: pathlib.Path) -> bool:
    """Whether a connection to a socket file is established."""
    with socket.socket(socket.AF_UNIX) as peer:
        try:
            peer.connect(str(file))
        except PermissionError:
            return False
        return True


@pytest.mark.parametrize("user, is_let_in", [(NGINX, True), (OTHER, False)])
def test_only_nginxs_workers_reach_the_inner_door(site: Site, user: str, is_let_in: bool) -> None:
    assert as_user(user, lambda: enters(site.folder / "inner/door.sock")) is is_let_in


# ---- Who listens


@pytest.fixture
def without_server(site: Site) -> Iterator[None]:
    """The time between two runs of the server."""
    assert site.server is not None
    site.server.kill()
    yield
    site.begin()
    assert ask(site, Y) == 200, "the server listens again"


@pytest.fixture
def without_nginx(site: Site) -> Iterator[None]:
    """The time between two runs of nginx."""
    site.nginx.terminate()
    site.nginx.wait(10)
    yield
    site.begin_nginx()
    assert ask(site, Y) == 200, "nginx listens again"


def ask(site: Site, token: str) -> int:
    """The status with which nginx answers for an account."""
    return Client(site.outside).ask("GET", "/v1/me", token).status


def what_came(port: int, started: pathlib.Path, seconds: float, last: str = "none") -> list[str]:
    """Listens as the server would. Returns what comes first over each connection, up to `last`."""
    found: list[str] = []
    with socket.socket() as listener:
        listener.setsockopt(socket.SOL_SOCKET, socket.SO_REUSEADDR, 1)
        listener.bind(("127.0.0.1", port))
        listener.listen(1)
        started.touch()
        end = time.monotonic() + seconds
        while time.monotonic() < end and not any(text.startswith(last) for text in found):
            listener.settimeout(max(0.01, end - time.monotonic()))
            try:
                peer, _ = listener.accept()
            except OSError:
                break
            peer.settimeout(0.5)
            try:
                found.append(peer.recv(4096).decode("latin1"))
            except OSError:
                found.append("connected")
    return found


def listening(site: Site, user: str, port: int, seconds: float, last: str = "none") -> AsUser:
    """A user who listens at a port."""
    (site.folder / "tmp").chmod(0o777)
    started = site.folder / "tmp" / f"started-{user}-{port}"
    listener = AsUser(user, lambda: what_came(port, started, seconds, last))
    wait_for(f"{user} listens", started.exists, 30)
    return listener


def cookies_sent() -> int:
    """How many SYN cookies the kernel has sent in this network."""
    rows = pathlib.Path("/proc/thread-self/net/netstat").read_text().splitlines()
    names, values = rows[0].split(), rows[1].split()
    return int(values[names.index("SyncookiesSent")])


@pytest.fixture(params=["0", "2"], ids=["without SYN cookies", "with SYN cookies"])
def has_cookies(without_server: None, request: pytest.FixtureRequest) -> Iterator[bool]:
    """The kernel replies to SYN with cookies never (0) or always (2)."""
    setting = pathlib.Path("/proc/sys/net/ipv4/tcp_syncookies")
    before = setting.read_text()
    setting.write_text(request.param)
    yield request.param == "2"
    setting.write_text(before)


def test_another_user_at_the_servers_port_gets_no_sheets(site: Site, has_cookies: bool) -> None:
    before = cookies_sent()
    listener = listening(site, OTHER, site.server_port, 2.5)
    for _ in range(12):
        Client(site.outside).send(text_of("PUT /v1/me/bids", X, SHEET, "host: x"))
    assert listener.result() == []
    assert (cookies_sent() > before) == has_cookies


def test_the_servers_own_user_is_reached(site: Site, without_server: None) -> None:
    listener = listening(site, SERVER, site.server_port, 15, "GET /v1/me ")
    Client(site.outside).send(text_of("GET /v1/me", Y, None, "host: x"))
    assert listener.result()[-1].startswith("GET /v1/me ")


def test_another_user_at_the_operators_port_gets_no_connection(
    site: Site, without_nginx: None
) -> None:
    listener = listening(site, OTHER, site.inside, 1.5)
    assert not connects(site.inside, 1)
    assert listener.result() == []


# ---- Who reads


def readable(folder: pathlib.Path) -> list[str]:
    """The files in a folder that this process can open."""
    found = []
    for top, _, names in os.walk(folder):
        for name in names:
            try:
                with open(pathlib.Path(top, name), "rb"):
                    found.append(name)
            except OSError:
                pass
    return found


def test_no_other_user_reads_nginxs_cache(site: Site) -> None:
    for path in ("/v1/products", "/v1/status"):
        assert Client(site.outside).ask("GET", path).status == 200
    assert readable(site.folder / "tmp/cache")
    assert as_user(OTHER, lambda: readable(site.folder / "tmp/cache")) == []


def test_nginxs_workers_are_of_its_user(site: Site) -> None:
    process = pathlib.Path(f"/proc/{site.nginx.pid}/task/{site.nginx.pid}")
    children = (process / "children").read_text().split()
    owners = {
        pwd.getpwuid(pathlib.Path("/proc", child).stat().st_uid).pw_name for child in children
    }
    assert owners == {NGINX}


@pytest.fixture
def folders(site: Site) -> pathlib.Path:
    """The auction's folder, with those that the conductor makes, and its report."""
    Folders(site.folder).make(group_of_workers(site.folder / "nginx.conf"))
    report = site.folder / "operator/conductor.json"
    report.write_text("{}\n")
    report.chmod(0o640)
    return site.folder


def inside(site: Site, path: str) -> int:
    """The status with which the operator's port answers the operator."""
    with socket.create_connection(("127.0.0.1", site.inside), 10) as peer:
        peer.sendall(text_of(f"GET {path}", OPERATOR, None, "host: localhost"))
        return int(peer.recv(65_536).split()[1])


def test_the_operator_reads_the_report_through_nginx(site: Site, folders: pathlib.Path) -> None:
    assert inside(site, "/conductor.json") == 200


def test_no_other_user_reads_the_report(folders: pathlib.Path) -> None:
    assert as_user(OTHER, lambda: readable(folders / "operator")) == []


# ---- Who uses up connections


def knocked(port: int, addresses: list[str]) -> tuple[int, float]:
    """How many of connections that come at once are established, and the seconds until then."""
    begun, peers, has_six = time.monotonic(), [], ":" in addresses[0]
    for address in addresses:
        peer = socket.socket(socket.AF_INET6 if has_six else socket.AF_INET)
        peer.setblocking(False)
        if has_six:
            peer.setsockopt(socket.IPPROTO_IPV6, IPV6_FREEBIND, 1)
        peer.bind((address, 0))
        peer.connect_ex(("::1" if has_six else "127.0.0.1", port))
        peers.append(peer)
    time.sleep(0.1)
    established = 0
    for peer in peers:
        try:
            established += bool(peer.getpeername())
        except OSError:
            pass
        peer.close()
    return established, time.monotonic() - begun


def test_of_700_connections_of_one_network_500_are_established(site: Site) -> None:
    established, seconds = knocked(site.outside, ["127.3.3.3"] * KNOCKS)
    assert BURST <= established <= BURST + 1 + A_SECOND * seconds
    assert ask(site, Y) == 200, "another network is answered"


@pytest.mark.parametrize("port", ["inside", "outside"])
def test_of_700_connections_of_other_users_500_are_established(site: Site, port: str) -> None:
    many = [f"127.4.{number // 250}.{number % 250 + 1}" for number in range(KNOCKS)]
    established, seconds = as_user(OTHER, lambda: knocked(getattr(site, port), many))
    assert established <= BURST + 1 + A_SECOND * (seconds + 2)
    assert inside(site, "/v1/results") == 200, "the operator is answered"


@pytest.fixture
def six(site: Site) -> Iterator[None]:
    """A listener at the bidders' port for addresses of IPv6."""
    routed = ["ip", "-6", "route", "replace", "local", "2001:db8::/32", "dev", "lo"]
    if subprocess.run(routed, stderr=subprocess.DEVNULL).returncode:
        pytest.skip("needs IPv6")
    address = ("::1", site.outside)
    with socket.create_server(address, family=socket.AF_INET6, backlog=4 * KNOCKS):
        yield


def test_of_700_addresses_of_one_ipv6_network_500_are_established(site: Site, six: None) -> None:
    addresses = [f"2001:db8:0:7::{number + 1:x}" for number in range(KNOCKS)]
    established, seconds = knocked(site.outside, addresses)
    assert BURST <= established <= BURST + 1 + A_SECOND * seconds


def test_of_700_ipv6_networks_all_connections_are_established(site: Site, six: None) -> None:
    addresses = [f"2001:db8:1:{number + 1:x}::7" for number in range(KNOCKS)]
    assert knocked(site.outside, addresses)[0] == KNOCKS
