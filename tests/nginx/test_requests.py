"""What nginx hands on of a bidder's request, and how it takes the reply."""
import json
import socket
import subprocess
import time
from collections.abc import Callable
from typing import Any

import pytest

from tests.lib.site import Site
from tests.lib.tls import Client, connected
from tests.lib.waiting import wait_for
from tests.nginx.recorder import BIG, Recorder, Request
from tests.nginx.requests import Bidder, get, head, put, sends

SLOW = 1.0  # seconds that a client waits between two parts of a request
BODY = b'{"bids": [], "round": 1}'
HANDED_ON = {"host", "connection", "authorization", "content-length", "taken"}
WAYS_TO_PRODUCTS = (
    "/v1/%70roducts",
    "//v1/products",
    "/v1/x/../products",
    "/v1/./products",
    "/v1/products?x=1",
    "/v1/products#x",
)
MORE_LINES = ("cookie: a=b", f"content-type: {'x' * 4000}")


def in_two_parts(client: Client, recorder: Recorder, token: str) -> None:
    """Sends a head and a part of a body, and the rest later."""
    start = head("PUT", "/v1/me/bids", token, *MORE_LINES, f"content-length: {len(BODY)}")
    for text in (start + BODY[:9], BODY[9:]):
        assert not recorder.seen, "a part of a request reached the server"
        client.send(text)
        time.sleep(SLOW)


def in_chunks(client: Client, recorder: Recorder, token: str) -> None:
    """Sends a chunk of a body, and the rest later."""
    start = head("PUT", "/v1/me/bids", token, *MORE_LINES, "transfer-encoding: chunked")
    client.send(start + b"5\r\n%s\r\n" % BODY[:5])
    time.sleep(SLOW)
    assert not recorder.seen, "a part of a body in chunks reached the server"
    client.send(b"%x\r\n%s\r\n0\r\n\r\n" % (len(BODY) - 5, BODY[5:]))


def with_expect(client: Client, recorder: Recorder, token: str) -> None:
    """Sends a head that expects `100 Continue`, and then the body."""
    lines = (*MORE_LINES, "expect: 100-continue", f"content-length: {len(BODY)}")
    client.send(head("PUT", "/v1/me/bids", token, *lines))
    assert client.reply().status == 100
    assert not recorder.seen, "a head reached the server"
    client.send(BODY)


def taken(recorder: Recorder, count: int = 1) -> list[Request]:
    """The requests, once nginx has taken the replies to this number of them."""
    wait_for(
        f"{count} replies are taken",
        lambda: sum(request.rest is not None for request in recorder.seen) >= count,
        20,
    )
    return recorder.seen


@pytest.mark.parametrize(
    "send", [in_two_parts, in_chunks, with_expect], ids=lambda send: send.__name__
)
def test_a_slow_sheet_is_handed_on_whole_and_at_once(
    site: Site, recorder: Recorder, bidder: Bidder, send: Callable[..., None]
) -> None:
    client = Client(site.outside)
    send(client, recorder, bidder.token)
    assert client.reply().status == 200
    (request,) = taken(recorder)
    assert request.body == BODY
    assert f"\r\ncontent-length: {len(BODY)}" in request.head.lower()
    assert request.took_in < SLOW
    assert request.rest == b"", "nothing comes after it"


@pytest.mark.parametrize(
    "send", [in_two_parts, in_chunks, with_expect], ids=lambda send: send.__name__
)
def test_only_these_lines_of_a_head_are_handed_on_each_once(
    site: Site, recorder: Recorder, bidder: Bidder, send: Callable[..., None]
) -> None:
    client = Client(site.outside)
    send(client, recorder, bidder.token)
    assert client.reply().status == 200
    names = recorder.seen[0].names
    assert set(names) <= HANDED_ON
    assert len(set(names)) == len(names)


def test_each_request_of_a_client_has_a_connection_of_its_own(
    site: Site, recorder: Recorder, bidder: Bidder
) -> None:
    client = Client(site.outside)
    for _ in range(3):
        assert client.ask("PUT", "/v1/me/bids", bidder.token, body=BODY).status == 200
    assert [request.rest for request in taken(recorder, 3)] == [b"", b"", b""]


def test_the_longest_body_is_handed_on(site: Site, recorder: Recorder, bidder: Bidder) -> None:
    longest = b" " * 1_048_576
    assert put(site, bidder.token, longest).status == 200
    assert recorder.seen[-1].body == longest


def test_a_reply_that_the_client_does_not_read_is_taken_at_once(
    site: Site, recorder: Recorder, bidder: Bidder
) -> None:
    peer = connected(site.outside)
    peer.setsockopt(socket.SOL_SOCKET, socket.SO_RCVBUF, 2048)
    peer.sendall(head("GET", "/v1/me/rounds/9", bidder.token))
    wait_for(f"{BIG} bytes are taken", lambda: recorder.seen and recorder.seen[0].took, 8)
    peer.close()


@pytest.mark.needs("curl")
def test_two_pages_come_over_one_connection_of_http_2(site: Site, recorder: Recorder) -> None:
    command: list[Any] = ["curl", "-sS", "-m", "10", "--http2", "--cacert", "cert.pem"]
    command += ["-w", " %{http_version} %{num_connects}\n"]
    command += [f"https://localhost:{site.outside}/v1/{page}" for page in ("status", "products")]
    ran = subprocess.run(command, capture_output=True, text=True, timeout=30, cwd=site.folder)
    lines = [line.rsplit(" ", 2)[1:] for line in ran.stdout.splitlines()]
    assert lines == [["2", "1"], ["2", "0"]], ran


# ---- How a request may be written


def test_other_ways_to_write_a_path_are_one_page_of_the_cache(
    site: Site, recorder: Recorder
) -> None:
    clients = [Client(site.outside) for _ in range(4)]
    for path in WAYS_TO_PRODUCTS:
        for client in clients:
            assert client.ask("GET", path).status == 200, path
    assert recorder.lines() == ["GET /v1/products"]


@pytest.mark.parametrize("path", ["/v1/%6de", "//v1/me", "/v1/x/../me", "/v1/me?x=1"])
def test_the_server_gets_the_plain_path(
    site: Site, recorder: Recorder, bidder: Bidder, path: str
) -> None:
    assert get(site, path, bidder.token).json["path"] == "/v1/me"
    assert recorder.lines() == ["GET /v1/me"]


@pytest.mark.parametrize("start", ["authorization: bearer", "AUTHORIZATION: Bearer"])
def test_case_does_not_matter_before_a_token(
    site: Site, recorder: Recorder, bidder: Bidder, start: str
) -> None:
    assert get(site, "/v1/me", None, f"{start} {bidder.token}").status == 200


def test_two_spaces_before_a_token_are_refused(
    site: Site, recorder: Recorder, bidder: Bidder
) -> None:
    reply = get(site, "/v1/me", None, f"authorization: Bearer  {bidder.token}")
    assert reply.refuses(401, "token")


@pytest.mark.parametrize(
    "text",
    [
        "GET /v1/me HTTP/1.1\nhost: x\nauthorization: Bearer TOKEN\n\n",
        "GET /v1/me HTTP/1.0\r\nauthorization: Bearer TOKEN\r\n\r\n",
    ],
    ids=["bare line feeds", "HTTP/1.0"],
)
def test_an_old_form_of_a_request_is_accepted(
    site: Site, recorder: Recorder, bidder: Bidder, text: str
) -> None:
    assert sends(site, text.replace("TOKEN", bidder.token).encode()).status == 200


# ---- Lines of replies


@pytest.mark.parametrize("host", ["auction.example", "localhost"])
@pytest.mark.parametrize(
    "line",
    ["GET /", "GET /v1/status", "GET /v1/me", "GET /none", "POST /v1/status", "GET /openapi.json"],
)
def test_each_reply_has_the_lines_that_protect_pages(
    site: Site, recorder: Recorder, bidder: Bidder, line: str, host: str
) -> None:
    found = sends(site, head(*line.split(), bidder.token, host=host)).head
    policy = "default-src 'self'; base-uri 'none'; form-action 'none'; frame-ancestors 'none'"
    assert found.count(f"\ncontent-security-policy: {policy}") == 1
    assert found.count("\nx-content-type-options: nosniff") == 1
    assert found.count("\ncache-control: ") == 1
    assert "\nx-door" not in found, "this line is for nginx's log only"
    lasting = "\nstrict-transport-security: max-age=31536000" in found
    assert lasting == (host != "localhost"), "a browser uses HTTPS only, but for localhost"


def test_a_refused_token_names_the_scheme_and_no_time(site: Site, recorder: Recorder) -> None:
    found = get(site, "/v1/me").head
    assert found.count("\nwww-authenticate: bearer") == 1
    assert "retry-after" not in found


def test_without_a_server_bidders_get_502_and_rounds_of_the_cache(
    site: Site, recorder: Recorder, bidder: Bidder
) -> None:
    assert get(site, "/v1/rounds/1", bidder.token).status == 200
    recorder.stop()
    try:
        wait_for(
            "502", lambda: get(site, "/v1/me", bidder.token).refuses(502, "proxy"), 10, every=0.6
        )
        assert get(site, "/v1/rounds/1", bidder.token).status == 200
        assert json.loads(get(site, "/v1/me", bidder.token).page) == {
            "code": "proxy",
            "status": 502,
        }
    finally:
        recorder.listen()


# ---- When a sheet was whole


def line_of(request: Request, name: str) -> str:
    """The value of a header line, or an empty text."""
    lines = (line.partition(": ") for line in request.head.split("\r\n"))
    return next((value for key, _, value in lines if key.lower() == name), "")


def test_a_sheet_is_handed_on_with_the_second_at_which_it_was_whole(
    site: Site, recorder: Recorder, bidder: Bidder
) -> None:
    client = Client(site.outside)
    client.send(head("PUT", "/v1/me/bids", bidder.token, f"content-length: {len(BODY)}"))
    client.send(BODY[:9])
    time.sleep(1.1)  # the head came in an earlier second
    before = int(time.time())
    client.send(BODY[9:])
    assert client.reply().status == 200
    assert before <= int(line_of(recorder.seen[0], "taken")) <= time.time()


def test_a_client_cannot_write_time_or_person(
    site: Site, recorder: Recorder, bidder: Bidder
) -> None:
    client = Client(site.outside)
    lines = ("taken: 1", "by: alice", f"content-length: {len(BODY)}")
    client.send(head("PUT", "/v1/me/bids", bidder.token, *lines) + BODY)
    assert client.reply().status == 200
    assert int(line_of(recorder.seen[0], "taken")) > 1
    assert line_of(recorder.seen[0], "by") == ""


def test_a_page_is_asked_for_without_a_time(site: Site, recorder: Recorder, bidder: Bidder) -> None:
    assert get(site, "/v1/me", bidder.token).status == 200
    assert "taken" not in recorder.seen[0].names
