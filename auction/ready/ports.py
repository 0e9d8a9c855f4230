"""The server and nginx at their ports, and who else can reach them."""
import fcntl
import hashlib
import os
import pwd
import signal
import socket
from collections.abc import Callable
from pathlib import Path

from auction import mock, persons
from auction.formats.journal import HEAD, head_of

from .auction import Auction
from .findings import Check, Fault, ensure

LOOPBACK = "0100007F"
LISTENS = "0A"
OTHER_USER = "nobody"


def listening_at(port: int) -> set[str]:
    """The addresses at which a port is listened on, as the kernel writes them."""
    found = set()
    for name in ("tcp", "tcp6"):
        table = Path("/proc/net", name)
        rows = (row.split() for row in table.read_text().splitlines()[1:]) if table.exists() else ()
        for address, state in ((row[1].split(":"), row[3]) for row in rows):
            if state == LISTENS and int(address[1], 16) == port:
                found.add(address[0])
    return found


def on_this_machine_only(port: int) -> None:
    found = listening_at(port)
    ensure(bool(found), f"no one listens at port {port}")
    ensure(found == {LOOPBACK}, f"port {port} is open at other addresses than 127.0.0.1")


def server(auction: Auction) -> str:
    """The server of this set-up, before its first closing or between two rounds."""
    port = auction.server_port
    on_this_machine_only(port)
    status, products = auction.page(port, "/v1/status"), auction.page(port, "/v1/products")
    ensure(products["products"] == auction.setup["products"], "the server has another set-up")
    status_of_operator, _ = auction.ask(port, "/v1/results", auction.setup["operator"])
    ensure(
        status_of_operator == 200, "the server has another set-up: it refuses the operator's token"
    )
    ensure(not status["ended"], "the auction has ended: this is the journal of another one")
    return f"round {status['round']}, of this set-up, at 127.0.0.1:{port} only"


def journal(auction: Auction) -> str:
    """The journal is of this set-up, and a server has it."""
    with open(auction.journal, "rb") as file:
        ensure(
            file.read(HEAD) == head_of(auction.setup_file.read_bytes()),
            f"{auction.journal} is not of this set-up",
        )
        try:
            fcntl.flock(file, fcntl.LOCK_SH | fcntl.LOCK_NB)
        except BlockingIOError:
            digest = hashlib.sha256(auction.setup_file.read_bytes()).hexdigest()
            return f"of set-up {digest}, and a server has it"
    raise Fault(f"no server has {auction.journal}: is it the server's own?")


def first_token(auction: Auction) -> str:
    """A token with which the first bidder can ask: a person's if it has persons."""
    first, found = auction.setup["bidders"][0], persons.read(auction.folder)
    tokens = [one.token for one in found if one.bidder == first["name"] and one.token]
    return (tokens or [first["token"]])[0]


def bidders_port(auction: Auction) -> str:
    """What bidders see: the pages, and no page of another auction in nginx's cache."""
    port, token = auction.bidders_port, first_token(auction)
    kind = mock.kind_of_value(auction.setup)
    is_mock = kind is mock.Kind.MOCK
    for path, file in (("/", "web/index.html"), ("/openapi.json", "openapi.json")):
        status, page = auction.ask(port, path)
        ensure(status == 200, f"{path} is {status}: may {auction.worker or 'nginx'} read {file}?")
        ensure(page == (auction.folder / file).read_bytes(), f"{path} is not {file}")
        marks = path != "/" or (mock.BANNER.encode() in page) == is_mock
        ensure(marks, f"{path} does not show {kind.value}: make the folder with `auction init`")
    ensure(
        auction.page(port, "/v1/products")["products"] == auction.setup["products"],
        "nginx shows the products of another auction: empty tmp/cache",
    )
    number = auction.page(auction.server_port, "/v1/status")["round"]
    status, page = auction.ask(port, "/v1/me", token)
    ensure(status == 200, f"the first bidder's token is refused with {status}: reload nginx")
    status, _ = auction.ask(port, f"/v1/rounds/{number}", token)
    ensure(status == 404, f"nginx shows round {number}, which is not closed: empty tmp/cache")
    status, _ = auction.ask(port, "/v1/results", auction.setup["operator"])
    ensure(status == 404, f"/v1/results is {status} at the bidders' port")
    return f"pages, products, and the first bidder's account, at port {port}"


def operators_port(auction: Auction) -> str:
    port = auction.operators_port
    on_this_machine_only(port)
    auction.page(port, "/v1/results", auction.setup["operator"])
    report, _ = auction.ask(port, "/conductor.json", auction.setup["operator"])
    if (auction.folder / "conductor.json").exists():
        ensure(report == 200, f"/conductor.json is {report}: make operator.map, and reload nginx")
    return f"results for your token, at 127.0.0.1:{port} only"


def as_another_user(action: Callable[[], bool]) -> bool:
    """What an action returns in a process of another user."""
    user = pwd.getpwnam(OTHER_USER)
    if (child := os.fork()) == 0:
        found = False
        try:
            signal.alarm(10)
            os.setgroups([])
            os.setresgid(user.pw_gid, user.pw_gid, user.pw_gid)
            os.setresuid(user.pw_uid, user.pw_uid, user.pw_uid)
            found = action()
        finally:
            os._exit(0 if found else 1)
    return os.waitstatus_to_exitcode(os.waitpid(child, 0)[1]) == 0


def connects(port: int) -> bool:
    with socket.socket() as peer:
        peer.settimeout(3)
        return peer.connect_ex(("127.0.0.1", port)) == 0


def other_users(auction: Auction) -> str:
    """Whether another user of the machine cannot connect to the server."""
    port = auction.server_port
    ensure(
        not as_another_user(lambda: connects(port)),
        f"{OTHER_USER} can connect to port {port}: nft -f services/clock-auction.nft",
    )
    return f"{OTHER_USER} cannot connect to port {port}"


def nginx_user(auction: Auction) -> str:
    """nginx's workers are of a user that runs nothing else."""
    shared = ("", "root", "nobody", "www-data")
    ensure(auction.worker not in shared, f"nginx.conf has no user of its own: {auction.worker}")
    user, found = pwd.getpwnam(auction.worker).pw_uid, set()
    for folder in Path("/proc").glob("[0-9]*"):
        try:
            if folder.stat().st_uid == user:
                found.add((folder / "comm").read_text().strip())
        except (FileNotFoundError, ProcessLookupError):
            continue
    ensure("nginx" in found, f"nginx does not run as {auction.worker}: stop it, and start it again")
    ensure(found == {"nginx"}, f"{auction.worker} also runs {', '.join(sorted(found - {'nginx'}))}")
    return f"{auction.worker}, which runs nothing else"


CHECKS = [
    Check("server", server),
    Check("journal", journal),
    Check("bidders' port", bidders_port),
    Check("operator's port", operators_port),
    Check("other users", other_users),
    Check("nginx's user", nginx_user),
]
