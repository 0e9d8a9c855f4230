"""While gate/ has the file `curtain-TEN`, no page of a bidder shows a new state."""

import pytest

from tests.lib.site import Site
from tests.lib.tls import Client, Reply
from tests.lib.waiting import wait_for
from tests.nginx.recorder import Recorder
from tests.nginx.requests import (
    Bidder,
    asks_inside,
    get,
    head,
    logged_from,
    put,
    tens,
    without_date,
)
from tests.nginx.running import set_gate

NEW = "/v1/rounds/7"  # the round that closes while the curtain is drawn
PAGES = (
    "/v1/status",
    "/v1/products",
    "/v1/rounds/1",
    NEW,
    "/v1/me",
    "/v1/me/bids",
    "/v1/me/rounds/1",
)
CLOSING = b'{"code":"closing","status":503}'


def draw(site: Site, recorder: Recorder) -> None:
    """Draws the curtain, and closes round 7."""
    set_gate(site, *tens("curtain-"), *tens("late-"))
    recorder.closed = 7


@pytest.mark.parametrize("page", PAGES)
def test_without_a_curtain_a_page_is_shown(
    site: Site, recorder: Recorder, bidder: Bidder, page: str
) -> None:
    recorder.closed = 6
    assert get(site, page, bidder.token).status == (404 if page == NEW else 200)


@pytest.mark.parametrize("page", PAGES)
def test_a_page_is_withheld(site: Site, recorder: Recorder, bidder: Bidder, page: str) -> None:
    draw(site, recorder)
    reply = get(site, page, bidder.token)
    assert (reply.status, reply.page) == (503, CLOSING)
    assert not recorder.seen


@pytest.mark.parametrize("page", PAGES)
def test_a_page_of_the_cache_is_withheld(
    site: Site, recorder: Recorder, bidder: Bidder, page: str
) -> None:
    recorder.closed = 7
    assert get(site, page, bidder.token).status == 200
    draw(site, recorder)
    assert get(site, page, bidder.token).refuses(503, "closing")


@pytest.mark.parametrize("page", ["/v1/status", NEW, "/v1/me"])
def test_a_page_is_withheld_though_its_head_came_before(
    site: Site, recorder: Recorder, bidder: Bidder, page: str
) -> None:
    client = Client(site.outside)
    client.send(head("GET", page, bidder.token, "transfer-encoding: chunked") + b"1\r\n")
    wait_for("nginx reads the head", lambda: get(site, "/v1/products").status == 200, 20)
    draw(site, recorder)
    before = len(recorder.seen)
    client.send(b"x\r\n0\r\n\r\n")
    reply = client.reply()
    assert (reply.status, reply.page) == (503, CLOSING)
    assert len(recorder.seen) == before


@pytest.fixture
def withheld(site: Site, recorder: Recorder, bidder: Bidder) -> list[Reply]:
    """The replies for all pages while the curtain is drawn."""
    draw(site, recorder)
    return [get(site, page, bidder.token) for page in PAGES]


def test_all_pages_have_one_answer_byte_for_byte(withheld: list[Reply]) -> None:
    assert len({without_date(reply) for reply in withheld}) == 1


def test_the_answer_says_when_to_ask_again(withheld: list[Reply]) -> None:
    assert all("\nretry-after: 1" in reply.head for reply in withheld)


def test_the_answer_has_no_line_of_the_inner_door(withheld: list[Reply]) -> None:
    assert not any("x-door" in reply.head for reply in withheld)


def test_only_the_conductor_sees_the_new_round_and_it_is_then_in_the_cache(
    site: Site, recorder: Recorder, bidder: Bidder
) -> None:
    draw(site, recorder)
    assert asks_inside(site, NEW).status == 200
    assert get(site, NEW, bidder.token).status == 503
    set_gate(site)
    assert get(site, NEW, bidder.token).status == 200
    assert recorder.lines() == [f"GET {NEW}"], "no bidder is the first to ask"


def test_a_file_is_shown_behind_the_curtain(site: Site, recorder: Recorder) -> None:
    draw(site, recorder)
    assert get(site, "/index.html").status == 200


@pytest.mark.parametrize("is_late", [False, True], ids=["inner door open", "inner door shut"])
def test_the_curtain_decides_about_no_sheet(
    site: Site, recorder: Recorder, bidder: Bidder, is_late: bool
) -> None:
    set_gate(site, *tens("curtain-"), *tens(), *(() if is_late else tens("late-")))
    assert put(site, bidder.token).status == (409 if is_late else 200)


@pytest.mark.parametrize("page", ["/v1/me", "/v1/status"])
def test_a_page_that_is_withheld_is_no_connection_of_the_server_in_the_log(
    site: Site, recorder: Recorder, bidder: Bidder, page: str
) -> None:
    draw(site, recorder)
    client = Client(site.outside)
    assert client.ask("GET", page, bidder.token).status == 503
    address = client.peer.getsockname()[0]
    wait_for("its line is in the log", lambda: logged_from(site, address), 20)
    (line,) = logged_from(site, address)
    assert (line["status"], line["server"]) == (503, "")


def test_of_a_page_in_the_cache_one_line_has_a_time_of_the_server(
    site: Site, recorder: Recorder
) -> None:
    client = Client(site.outside)
    for _ in range(3):
        assert client.ask("GET", "/v1/products").status == 200
    address = client.peer.getsockname()[0]
    wait_for("its lines are in the log", lambda: len(logged_from(site, address)) == 3, 20)
    assert [line["server"] != "" for line in logged_from(site, address)] == [True, False, False]


def test_the_inner_door_writes_no_lines_of_its_own(
    site: Site, recorder: Recorder, bidder: Bidder
) -> None:
    assert get(site, "/v1/me", bidder.token).status == 200
    assert not logged_from(site, "unix:")
