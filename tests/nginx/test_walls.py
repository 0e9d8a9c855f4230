"""What never reaches the server from outside, and nginx's own refusals."""
import socket
from collections.abc import Callable

import pytest

from tests.lib.site import Site
from tests.lib.tls import Client, Reply
from tests.nginx.recorder import Recorder
from tests.nginx.requests import OPERATOR, UNKNOWN, Bidder, get, head, put, sends

# What a client may send that has no bidder's token, with a bidder's token instead of TOKEN.
NO_TOKENS = {
    "no token": None,
    "an unknown token": UNKNOWN,
    "the operator's token": OPERATOR,
    "a token and a letter": "TOKENX",
    "a token without its last letter": "TOKE",
}
BIDDERS_PAGES = ("/v1/me", "/v1/me/bids", "/v1/me/rounds/1", "/v1/rounds/1")
NEVER_OUTSIDE = (
    "POST /v1/close",
    "GET /v1/results",
    "GET /none",
    "GET /operator.html",
    "GET /%6fperator.js",
)
# The last ones end with a line feed or more, which would be in the head that is handed on.
NO_PAGES = (
    "/v1/close",
    "/v1/results",
    "/v1/rounds/01",
    "/v1/rounds/x",
    "/v1/rounds/" + "9" * 17,
    "/v1/me/",
    "/V1/me",
    "/v1/me%0a",
    "/v1/me/rounds/1%0A",
    "/v1/rounds/1%0a",
    "/v1/me%0d%0ax:%20y",
)


@pytest.fixture(params=list(NO_TOKENS.values()), ids=list(NO_TOKENS))
def no_token(request: pytest.FixtureRequest, bidder: Bidder) -> str | None:
    """A token that is of no bidder, or none."""
    if not (token := request.param):
        return None
    return token.replace("TOKEN", bidder.token).replace("TOKE", bidder.token[:-1])


@pytest.mark.parametrize("path", BIDDERS_PAGES)
def test_a_bidders_page_needs_a_bidders_token(
    site: Site, recorder: Recorder, no_token: str | None, path: str
) -> None:
    assert get(site, path, no_token).refuses(401, "token")
    assert not recorder.seen


def test_a_sheet_needs_a_bidders_token(
    site: Site, recorder: Recorder, no_token: str | None
) -> None:
    assert put(site, no_token, b"{}").refuses(401, "token")
    assert not recorder.seen


@pytest.mark.parametrize("line", NEVER_OUTSIDE)
def test_no_page_of_the_operator_is_outside(
    site: Site, recorder: Recorder, no_token: str | None, line: str
) -> None:
    method, path = line.split()
    client = Client(site.outside)
    assert client.ask(method, path, no_token, body=b"{}").refuses(404, "no_page")
    assert not recorder.seen


@pytest.mark.parametrize("path", NO_PAGES)
def test_no_other_path_is_handed_on(
    site: Site, recorder: Recorder, bidder: Bidder, path: str
) -> None:
    assert get(site, path, bidder.token).refuses(404, "no_page")
    assert not recorder.seen


@pytest.mark.parametrize("line", ["PUT /v1/status", "DELETE /v1/products", "POST /v1/rounds/1"])
def test_no_other_method_is_handed_on(
    site: Site, recorder: Recorder, bidder: Bidder, line: str
) -> None:
    assert Client(site.outside).ask(*line.split(), bidder.token).refuses(405, "method")
    assert not recorder.seen


def test_two_lines_with_tokens_are_refused(
    site: Site, recorder: Recorder, new_bidder: Callable[[], Bidder]
) -> None:
    one, other = new_bidder(), new_bidder()
    reply = get(site, "/v1/me", one.token, f"authorization: Bearer {other.token}")
    assert reply.status in (400, 401)
    assert not recorder.seen


def test_the_operators_port_is_not_open_at_another_address(site: Site) -> None:
    with socket.socket() as peer:
        assert peer.connect_ex(("127.8.0.9", site.inside)) != 0


# ---- nginx's own refusals, in the words of docs/formats.md

BODY_AT_PRODUCTS = head("GET", "/v1/products", None, "transfer-encoding: chunked")
TWO_LENGTHS = head("GET", "/v1/status", None, "content-length: 1", "content-length: 1")
REFUSALS = {
    "a body that is too long": (
        "413 long_body",
        head("PUT", "/v1/me/bids", "TOKEN", "content-length: 1048577"),
    ),
    "a body at the status": (
        "413 long_body",
        head("GET", "/v1/status", None, "content-length: 9"),
    ),
    "a body in chunks at the products": (
        "413 long_body",
        BODY_AT_PRODUCTS + b"9\r\n123456789\r\n0\r\n\r\n",
    ),
    "a line that is too long": (
        "431 long_head",
        head("GET", "/v1/me", "TOKEN", f"x: {'y' * 5000}"),
    ),
    "a path that is too long": ("431 long_head", head("GET", f"/v1/{'y' * 5000}")),
    "no host": ("400 bad_head", b"GET /v1/status HTTP/1.1\r\n\r\n"),
    "no HTTP": ("400 bad_head", b"hello\r\n\r\n"),
    "two lengths": ("400 bad_head", TWO_LENGTHS),
    "HTTP/3.0": ("400 bad_head", b"GET /v1/status HTTP/3.0\r\nhost: x\r\n\r\n"),
    "if-match": ("400 bad_head", head("GET", "/", None, "if-match: x")),
    "a coding": (
        "501 coding",
        head("PUT", "/v1/me/bids", "TOKEN", "transfer-encoding: gzip"),
    ),
    "TRACE": ("405 method", head("TRACE", "/v1/status")),
}


@pytest.mark.parametrize("refusal, text", REFUSALS.values(), ids=REFUSALS)
def test_nginx_refuses_as_the_formats_say(
    site: Site, recorder: Recorder, bidder: Bidder, refusal: str, text: bytes
) -> None:
    status, code = refusal.split()
    reply = sends(site, text.replace(b"TOKEN", bidder.token.encode()))
    assert reply.refuses(int(status), code), reply
    assert not recorder.seen


def test_plain_http_is_refused(site: Site, recorder: Recorder) -> None:
    with socket.create_connection(("127.0.0.1", site.outside), 10) as peer:
        peer.sendall(head("GET", "/v1/status"))
        assert b'{"code":"bad_head","status":400}' in peer.recv(65_536)
    assert not recorder.seen


def test_a_range_is_not_looked_at(site: Site) -> None:
    reply: Reply = get(site, "/", None, "range: bytes=9999999-")
    assert reply.status == 200
