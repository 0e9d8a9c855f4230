"""When a sheet is accepted: two doors, by the files of gate/."""
import fcntl
import os
import shutil
import subprocess
import termios
import time
from collections.abc import Callable
from subprocess import PIPE

import pytest

from tests.lib.site import Site
from tests.lib.tls import Client, Reply
from tests.lib.waiting import wait_for
from tests.nginx.recorder import Recorder
from tests.nginx.requests import (
    SHEET,
    Bidder,
    get,
    half_sent,
    head,
    logged_from,
    put,
    sheet_of,
    ten,
    tens,
    without_date,
)
from tests.nginx.running import set_gate

SHEETS = "PUT /v1/me/bids"
REFUSED = b'{"code":"window","status":409}'
NEXT = b'{"bids":[],"round":2}'  # a sheet of the next round
# Gates that accept no sheets: the tens of seconds after now whose files they have.
SHUT = {
    "an empty gate": (),
    "the ten seconds before": (-1,),
    "a later time": (30,),
    "an earlier time": (-100_000,),
    "the year 1970": (-int(ten()),),
}


@pytest.fixture(params=["no gate", *SHUT])
def shut(request: pytest.FixtureRequest, site: Site, recorder: Recorder) -> Site:
    """nginx with a gate that accepts no sheets."""
    if request.param == "no gate":
        shutil.rmtree(site.folder / "gate")
    else:
        set_gate(site, *(ten(after) for after in SHUT[request.param]))
    return site


def test_a_sheet_is_refused_while_the_gate_is_shut(
    shut: Site, recorder: Recorder, bidder: Bidder
) -> None:
    assert put(shut, bidder.token).refuses(409, "window")
    assert not recorder.seen


@pytest.mark.parametrize("path", ["/v1/me/bids", "/v1/me"])
def test_a_bidders_pages_are_shown_while_the_gate_is_shut(
    shut: Site, bidder: Bidder, path: str
) -> None:
    assert get(shut, path, bidder.token).status == 200


def test_while_the_gate_is_shut_a_sheet_still_needs_a_token(site: Site, recorder: Recorder) -> None:
    set_gate(site)
    assert put(site, None).refuses(401, "token")
    assert not recorder.seen


@pytest.mark.parametrize("path", ["/window", "/method", "/door", "/proxy_refusal"])
def test_a_page_that_refuses_is_no_page(
    site: Site, recorder: Recorder, bidder: Bidder, path: str
) -> None:
    client = Client(site.outside)
    assert client.ask("PUT", path, bidder.token, body=SHEET).refuses(404, "no_page")
    assert not recorder.seen


def test_sheets_out_of_a_window_count_against_the_rate(
    site: Site, recorder: Recorder, bidder: Bidder
) -> None:
    set_gate(site)
    client = Client(site.outside)
    found = [client.ask("PUT", "/v1/me/bids", bidder.token, body=SHEET).status for _ in range(80)]
    assert set(found) == {409, 429}


@pytest.mark.parametrize("is_open", [True, False], ids=["open", "both doors"])
def test_a_sheet_is_accepted_while_both_doors_are_open(
    site: Site, recorder: Recorder, bidder: Bidder, is_open: bool
) -> None:
    set_gate(site, *(["open"] if is_open else [*tens(), *tens("late-")]))
    assert put(site, bidder.token).status == 200
    assert recorder.lines() == [SHEETS]


@pytest.mark.parametrize("kind", ["", "late-"], ids=["the outer door", "the inner door"])
def test_one_door_lets_no_sheet_pass(
    site: Site, recorder: Recorder, bidder: Bidder, kind: str
) -> None:
    set_gate(site, *tens(kind))
    assert put(site, bidder.token).refuses(409, "window")
    assert not recorder.seen


# ---- A sheet whose head comes in the window, and whose last byte comes later


@pytest.fixture
def begun(site: Site, recorder: Recorder, bidder: Bidder) -> Client:
    """A client that sent a part of its sheet in the window. Only the inner door is still open."""
    set_gate(site, *tens(), *tens("late-"))
    client = half_sent(site, bidder.token)
    client.wait_until_read()
    set_gate(site, *tens("late-"))
    return client


def test_a_sheet_that_began_in_the_window_passes_the_inner_door(
    begun: Client, site: Site, recorder: Recorder, bidder: Bidder
) -> None:
    assert put(site, bidder.token).refuses(409, "window"), "one that comes now is late"
    begun.send(SHEET[5:])
    assert begun.reply().status == 200
    assert recorder.lines() == [SHEETS]


def test_a_sheet_that_is_whole_too_late_is_refused_byte_for_byte_as_a_late_head(
    begun: Client, site: Site, recorder: Recorder, bidder: Bidder
) -> None:
    outer = put(site, bidder.token)
    set_gate(site)
    begun.send(SHEET[5:])
    inner = begun.reply()
    assert inner.refuses(409, "window")
    assert without_date(inner) == without_date(outer)
    assert not recorder.seen


def test_a_sheet_that_began_while_the_gate_was_open_is_refused_after_it(
    site: Site, recorder: Recorder, bidder: Bidder
) -> None:
    client = half_sent(site, bidder.token)
    client.wait_until_read()
    set_gate(site)
    client.send(SHEET[5:])
    refused = client.reply()
    assert refused.refuses(409, "window")
    assert without_date(refused) == without_date(put(site, bidder.token))
    assert not recorder.seen


def by_length(site: Site, token: str) -> Callable[[], tuple[int, bytes]]:
    """Sends a part of a sheet of known length. Returns what sends the rest."""
    client = half_sent(site, token)
    client.wait_until_read()

    def end() -> tuple[int, bytes]:
        client.send(SHEET[5:])
        return short(client.reply())

    return end


def by_chunks(site: Site, token: str) -> Callable[[], tuple[int, bytes]]:
    """Sends a chunk of a sheet. Returns what sends the rest."""
    client = Client(site.outside)
    start = head("PUT", "/v1/me/bids", token, "transfer-encoding: chunked")
    client.send(start + b"5\r\n" + SHEET[:5] + b"\r\n")
    client.wait_until_read()

    def end() -> tuple[int, bytes]:
        client.send(b"%x\r\n%s\r\n0\r\n\r\n" % (len(SHEET) - 5, SHEET[5:]))
        return short(client.reply())

    return end


def by_http2(site: Site, token: str) -> Callable[[], tuple[int, bytes]]:
    """Sends a part of a sheet over HTTP/2, without its length. Returns what sends the rest."""
    command = ["curl", "-sS", "-m", "20", "--http2", "--cacert", "cert.pem", "-T", "-"]
    command += ["-H", f"authorization: Bearer {token}", "-w", " %{http_version} %{http_code}"]
    command += [f"https://localhost:{site.outside}/v1/me/bids"]
    curl = subprocess.Popen(command, stdin=PIPE, stdout=PIPE, cwd=site.folder)
    assert curl.stdin is not None
    pipe = curl.stdin.fileno()
    os.write(pipe, SHEET[:5])
    wait_for("curl sends it", lambda: not any(fcntl.ioctl(pipe, termios.FIONREAD, bytes(4))), 20)
    time.sleep(1)  # nginx reads it

    def end() -> tuple[int, bytes]:
        page, version, status = curl.communicate(SHEET[5:], 20)[0].rsplit(b" ", 2)
        assert version == b"2"
        return int(status), page

    return end


def short(reply: Reply) -> tuple[int, bytes]:
    """The status and the page."""
    return reply.status, reply.page


WAYS = pytest.mark.parametrize(
    "begin",
    [by_length, by_chunks, pytest.param(by_http2, marks=pytest.mark.needs("curl"))],
    ids=["by length", "by chunks", "by HTTP/2"],
)


@WAYS
def test_a_sheet_that_is_whole_in_a_pause_is_refused(
    site: Site,
    recorder: Recorder,
    bidder: Bidder,
    begin: Callable[..., Callable[[], tuple[int, bytes]]],
) -> None:
    set_gate(site, *tens(), *tens("late-"))
    end = begin(site, bidder.token)
    set_gate(site)  # a pause
    assert end() == (409, REFUSED)
    assert not recorder.seen


@WAYS
def test_a_sheet_that_is_whole_in_the_window_is_accepted(
    site: Site,
    recorder: Recorder,
    bidder: Bidder,
    begin: Callable[..., Callable[[], tuple[int, bytes]]],
) -> None:
    end = begin(site, bidder.token)
    assert end()[0] == 200
    assert [request.body for request in recorder.seen] == [SHEET]


def test_a_sheet_that_waits_for_the_next_window_is_accepted_in_it(
    site: Site, recorder: Recorder, bidder: Bidder
) -> None:
    set_gate(site, *tens(), *tens("late-"))
    client = half_sent(site, bidder.token, NEXT)
    client.wait_until_read()
    set_gate(site)
    client.send(NEXT[5:-1])
    client.wait_until_read()
    assert not recorder.seen
    set_gate(site, *tens(), *tens("late-"))  # the next window
    client.send(NEXT[-1:])
    assert client.reply().status == 200


def test_a_burst_of_sheets_passes_both_doors(
    site: Site, recorder: Recorder, new_bidder: Callable[[], Bidder]
) -> None:
    bidders = [new_bidder() for _ in range(3)]
    clients = [(Client(site.outside), bidder.token) for bidder in bidders for _ in range(6)]
    for client, token in clients:
        client.send(sheet_of(token))
    assert [client.reply().status for client, _ in clients] == [200] * 18
    assert recorder.lines() == [SHEETS] * 18


def test_a_sheet_that_the_inner_door_refused_is_no_connection_of_the_server_in_the_log(
    begun: Client, site: Site
) -> None:
    set_gate(site)
    begun.send(SHEET[5:])
    assert begun.reply().status == 409
    address = begun.peer.getsockname()[0]
    wait_for("its line is in the log", lambda: logged_from(site, address), 20)
    (line,) = logged_from(site, address)
    assert (line["status"], line["server"]) == (409, "")
