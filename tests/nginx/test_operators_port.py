"""The operator's port: who reaches it, and the conductor's report."""
import shutil
import socket

import pytest

from tests.lib.site import Site
from tests.nginx.recorder import Recorder
from tests.nginx.requests import (
    OPERATOR,
    PAGES_HAVE,
    Bidder,
    asks_inside,
    get,
)

OTHER_HOSTS = ("evil.test", "evil.test:PORT", "127.0.0.2", "localhost.evil.test", "[::1]")
REPORT = "/conductor.json"


@pytest.mark.parametrize("line", ["GET /", "GET /v1/status", "POST /v1/close", f"GET {REPORT}"])
@pytest.mark.parametrize("host", OTHER_HOSTS)
def test_another_name_of_this_machine_is_refused(
    site: Site, recorder: Recorder, host: str, line: str
) -> None:
    method, path = line.split()
    host = host.replace("PORT", str(site.inside))
    assert asks_inside(site, path, OPERATOR, method=method, host=host).refuses(421, "host")
    assert not recorder.seen


def test_a_request_without_a_host_is_refused(site: Site, recorder: Recorder) -> None:
    with socket.create_connection(("127.0.0.1", site.inside), 10) as peer:
        peer.sendall(b"GET /v1/status HTTP/1.0\r\n\r\n")
        assert b'{"code":"host","status":421}' in peer.recv(65_536)
    assert not recorder.seen


@pytest.mark.parametrize("line", ["GET /", "GET /v1/status", "POST /v1/close", "GET /none"])
@pytest.mark.parametrize("other", ["cross-site", "same-site", "x"])
def test_another_sites_page_is_refused(
    site: Site, recorder: Recorder, other: str, line: str
) -> None:
    method, path = line.split()
    reply = asks_inside(site, path, OPERATOR, method=method, sec_fetch_site=other)
    assert reply.refuses(403, "cross_site")
    assert not recorder.seen


@pytest.mark.parametrize("own", ["same-origin", "none"])
def test_the_operators_page_is_shown_to_a_browser(site: Site, own: str) -> None:
    host = f"localhost:{site.inside}"
    assert asks_inside(site, "/", host=host, sec_fetch_site=own).status == 200


def test_the_operators_page_is_in_no_frame_and_not_for_https_only(site: Site) -> None:
    found = asks_inside(site, "/").head
    assert f"content-security-policy: {PAGES_HAVE}" in found
    assert "strict-transport" not in found


# ---- The conductor's report


@pytest.fixture
def reported(site: Site) -> Site:
    """nginx with a report of the conductor."""
    (site.folder / "operator").mkdir(exist_ok=True)
    (site.folder / "operator/conductor.json").write_text('{"state":"open"}')
    return site


def test_the_report_is_for_the_operator(reported: Site, recorder: Recorder) -> None:
    reply = asks_inside(reported, REPORT, OPERATOR)
    assert (reply.status, reply.json) == (200, {"state": "open"})
    assert not recorder.seen


def test_before_there_is_a_report_there_is_no_page(site: Site, recorder: Recorder) -> None:
    shutil.rmtree(site.folder / "operator", ignore_errors=True)
    assert asks_inside(site, REPORT, OPERATOR).refuses(404, "no_page")
    assert not recorder.seen


def test_without_a_token_there_is_no_report(reported: Site) -> None:
    assert asks_inside(reported, REPORT).refuses(401, "token")


def test_with_a_bidders_token_there_is_no_report(reported: Site, bidder: Bidder) -> None:
    assert asks_inside(reported, REPORT, bidder.token).refuses(401, "token")


def test_the_report_is_not_at_the_bidders_port(reported: Site) -> None:
    assert get(reported, REPORT, OPERATOR).refuses(404, "no_page")


def test_the_timetable_is_at_the_operators_port(site: Site) -> None:
    (site.folder / "public").mkdir(exist_ok=True)
    (site.folder / "public/timetable.json").write_text('{"file":"timetable"}')
    assert asks_inside(site, "/public/timetable.json").json == {"file": "timetable"}


def test_nothing_can_be_written_through_nginx(site: Site) -> None:
    for path in ("/conductor.json", "/public/timetable.json"):
        reply = asks_inside(site, path, OPERATOR, method="PUT", body=b"{}")
        assert reply.status in (404, 405)
