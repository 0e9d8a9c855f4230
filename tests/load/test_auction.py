"""A whole auction through nginx over TLS, with bidders, slow and hostile clients.

    pytest tests/load [--full] [-s]

24 clients bid for 30 products. With `--full` 256 clients bid for 500 products. `-s` shows how long
the bidders waited.

A quarter of the clients are slow: they say nothing, send a byte a second, or never read. A quarter
are hostile: they send mutated requests with their own tokens, the operator's, and none. These begin
after round 1. `auction close` closes the rounds. Before each round but the first, the server is
killed, and started again with its journal. A second server without nginx gets the same sheets and
closings.
"""
import asyncio
import pathlib
from collections.abc import Callable, Iterator

import pytest

from tests.lib.server import Server
from tests.lib.site import running
from tests.lib.tls import Client, Reply
from tests.load.auction import OPERATOR, Auction, Size, setup_of
from tests.load.bidders import head

pytestmark = [
    pytest.mark.needs("nginx", "openssl"),
    pytest.mark.slow,
    pytest.mark.timeout(600),
]

QUICK, FULL = Size(24, 30), Size(256, 500)
SECONDS = 120


@pytest.fixture(scope="module")
def auction(program: pathlib.Path, request: pytest.FixtureRequest) -> Iterator[Auction]:
    """The auction, which has ended, with server and nginx still running."""
    size = FULL if request.config.getoption("--full") else QUICK
    with running(program, setup_of(size)) as site:
        with Server(program, site.folder / "setup.json").ready() as second:
            played = Auction(site, second, size, SECONDS)
            asyncio.run(played.play())
            print(*played.figures(), sep="\n")
            yield played


def test_each_page_and_result_is_that_of_the_server_without_nginx(auction: Auction) -> None:
    assert auction.compared > 5 * auction.rounds * auction.size.bidders
    assert not auction.differences


def test_no_reply_to_a_hostile_client_has_what_is_anothers(auction: Auction) -> None:
    assert not auction.faults


def test_slow_and_hostile_clients_were_there(auction: Auction) -> None:
    assert len(auction.counted["slow"]) == 4
    assert {"200", "401", "404"} <= auction.counted["hostile"].keys()


def test_the_server_was_killed_before_each_round_but_the_first(auction: Auction) -> None:
    assert auction.site.kills == auction.rounds - 1 >= 2


def test_requests_had_to_wait_for_others_in_processing(auction: Auction) -> None:
    """Otherwise no tie-breaking numbers would matter."""
    assert auction.most_ties > 0


# ---- What is seen from outside

BIDDER = "GOOD000000000000"
OUTSIDE = {
    "the operator closes": (404, "POST", "/v1/close", OPERATOR),
    "the operator asks for results": (404, "GET", "/v1/results", OPERATOR),
    "the operator's page": (404, "GET", "/operator.html", BIDDER),
    "its script": (404, "GET", "/operator.js", BIDDER),
    "an account with the operator's token": (401, "GET", "/v1/me", OPERATOR),
    "an account with an unknown token": (401, "GET", "/v1/me", "UNKN0WNT0KEN0000"),
    "an account with a token in the wrong case": (401, "GET", "/v1/me", BIDDER.lower()),
    "a file that is not for the web": (404, "GET", "/try", BIDDER),
    "the first page": (200, "GET", "/", BIDDER),
    "the bidders' script": (200, "GET", "/bidder.js", BIDDER),
}


@pytest.mark.parametrize("status, method, path, token", OUTSIDE.values(), ids=OUTSIDE)
def test_from_outside(auction: Auction, status: int, method: str, path: str, token: str) -> None:
    reply = Client(auction.site.outside).ask(method, path, token)
    assert reply.status == status
    assert status == 200 or reply.json["status"] == status


SHEET = b'{"round":1,"bids":[]}'


def sent_whole(client: Client) -> Reply:
    """Sends a sheet of known length."""
    return client.ask("PUT", "/v1/me/bids", BIDDER, body=SHEET)


def sent_in_chunks(client: Client) -> Reply:
    """Sends a sheet without its length."""
    start = head("PUT", "/v1/me/bids", BIDDER, "transfer-encoding: chunked")
    client.send(start + b"%x\r\n%s\r\n0\r\n\r\n" % (len(SHEET), SHEET))
    return client.reply()


def sent_with_expect(client: Client) -> Reply:
    """Sends a sheet after `100 Continue`."""
    lines = (f"content-length: {len(SHEET)}", "expect: 100-continue")
    client.send(head("PUT", "/v1/me/bids", BIDDER, *lines))
    assert client.reply().status == 100
    client.send(SHEET)
    return client.reply()


@pytest.mark.parametrize(
    "send", [sent_whole, sent_in_chunks, sent_with_expect], ids=lambda send: send.__name__
)
def test_a_sheet_after_the_end_is_refused_as_the_server_refuses_it(
    auction: Auction, send: Callable[[Client], Reply]
) -> None:
    reply = send(Client(auction.site.outside))
    wanted = auction.at_second("PUT /v1/me/bids", BIDDER, SHEET)
    assert (reply.status, reply.page) == (409, wanted)


# ---- What is on the disk


def test_the_journal_is_for_its_owner_only(auction: Auction) -> None:
    assert (auction.site.folder / "auction.journal").stat().st_mode & 0o077 == 0


def test_no_bidders_token_is_in_the_log(auction: Auction) -> None:
    log = (auction.site.folder / "log/access.log").read_text(errors="replace")
    assert not any(bidder.token in log for bidder in auction.bidders)


def test_some_requests_in_the_log_did_not_reach_the_server(auction: Auction) -> None:
    lines = (auction.site.folder / "log/access.log").read_text(errors="replace").splitlines()
    reached = sum('"server":""' not in line for line in lines)
    assert 0 < reached < len(lines)
