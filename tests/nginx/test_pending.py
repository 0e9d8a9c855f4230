"""What is on its way to the server, as the conductor sees it in the tables of the kernel."""
import pathlib
import socket
from collections.abc import Iterator

import pytest

from auction.conductor.pending import at_door, pending
from tests.lib.site import Site
from tests.lib.tls import Client
from tests.lib.waiting import wait_for
from tests.nginx.recorder import Recorder
from tests.nginx.requests import Bidder, sheet_of


def at_server(site: Site) -> set[str]:
    """The connections that are on their way to the server's port."""
    return {one for one in pending(site.server_port) if one.startswith("from")}


def at_inner_door(site: Site, folder: pathlib.Path) -> list[str]:
    """The connections to this site's inner door. Other tests may run another nginx."""
    rows = pathlib.Path("/proc/net/unix").read_text(errors="replace").splitlines(True)
    table = folder / "unix"
    table.write_text(rows[0] + "".join(row for row in rows if str(site.folder) in row))
    return at_door(table)


@pytest.fixture
def waiting(site: Site, recorder: Recorder, bidder: Bidder) -> Iterator[Client]:
    """A client whose sheet has reached the server, which does not answer."""
    wait_for("nothing is on its way", lambda: not at_server(site), 20)
    recorder.may_go.clear()
    client = Client(site.outside)
    client.send(sheet_of(bidder.token))
    wait_for("a sheet is on its way", lambda: at_server(site), 20)
    yield client
    recorder.may_go.set()


def test_a_sheet_is_seen_at_the_inner_door_until_its_reply_is_there(
    waiting: Client, site: Site, recorder: Recorder, tmp_path: pathlib.Path
) -> None:
    (marked,) = at_inner_door(site, tmp_path)
    assert marked in pending(site.server_port)
    recorder.may_go.set()
    assert waiting.reply().status == 200
    wait_for("it has its reply", lambda: marked not in at_inner_door(site, tmp_path), 20)


def test_a_sheet_is_seen_at_the_server_until_its_reply_is_there(
    waiting: Client, site: Site, recorder: Recorder
) -> None:
    marked = at_server(site)
    assert len(marked) == 1
    recorder.may_go.set()
    assert waiting.reply().status == 200
    wait_for("it has its reply", lambda: not marked & at_server(site), 20)


def test_a_request_whose_client_is_gone_is_seen(
    waiting: Client, site: Site, recorder: Recorder
) -> None:
    """So it is if nginx was killed after it had sent a request."""
    before = at_server(site)
    with socket.create_connection(("127.0.0.1", site.server_port)) as straight:
        straight.sendall(b"GET /v1/status HTTP/1.0\r\n\r\n")
        straight.shutdown(socket.SHUT_WR)
        wait_for("two are on their way", lambda: len(at_server(site)) == 2, 20)
        assert at_server(site) > before
        recorder.may_go.set()
        straight.recv(65_536)
