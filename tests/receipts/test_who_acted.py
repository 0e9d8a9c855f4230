"""Who acted for a bidder: persons with tokens of their own, in receipts and in lists."""
import csv
import hashlib
import json
import pathlib
import signal
from collections.abc import Iterator
from concurrent.futures import ThreadPoolExecutor
from typing import Any

import pytest

from auction import persons
from tests.lib import setups
from tests.lib.http import answer_to, compact, text_of
from tests.lib.paths import auction
from tests.lib.served import bid
from tests.lib.site import Site, running
from tests.lib.tls import Client, Reply
from tests.lib.waiting import wait_for

pytestmark = pytest.mark.needs("nginx", "openssl")
SECONDS = 60
SETUP = setups.setup(
    [setups.product("A", 9)], [setups.bidder(name, name * 16, 9) for name in ("X", "Y")]
)


class Acting:
    """An auction whose bidder X has the persons alice and bob, and Y the operator's clerk."""

    def __init__(self, site: Site) -> None:
        self.site, self.folder = site, site.folder
        names = {"url": "http://127.0.0.1:1", "token": "operator.token", "setup": "setup.json"}
        settings = {**names, "journal": "auction.journal"}
        (self.folder / "conductor.json").write_text(json.dumps(settings))
        for bidder, name in (("X", "alice"), ("X", "bob"), ("X", "eve"), ("Y", "clerk-1")):
            self.persons("--add", bidder, name)
        self.tokens = {one.name: one.token for one in persons.read(self.folder)}
        self.reload(lambda: self.status(self.tokens["clerk-1"]) == 200)
        site.begin_receipts()
        self.counts = {"X": 0, "Y": 0}

    def persons(self, *words: str) -> None:
        done = auction("persons", self.folder, *words)
        assert done.returncode == 0, done.stderr

    def reload(self, condition: Any) -> None:
        """Has nginx read its files, and waits for what that changes."""
        self.site.nginx.send_signal(signal.SIGHUP)
        wait_for("nginx has read its files", condition, SECONDS, every=0.5)

    def status(self, token: str) -> int:
        return Client(self.site.outside).ask("GET", "/v1/me", token).status

    def put(self, token: str, quantity: int, path: str = "/v1/me/bids") -> tuple[Reply, str]:
        """Submits a sheet. Returns the reply, and the digest of what was sent."""
        body = compact({"bids": [bid(quantity)], "round": 1})
        reply = Client(self.site.outside).ask("PUT", path, token, body=body)
        return reply, hashlib.sha256(body).hexdigest()

    def accepted(self, bidder: str, person: str, quantity: int) -> dict[str, Any]:
        """The receipt of a sheet, which must be accepted, as its person fetches it."""
        reply, body = self.put(self.tokens[person], quantity)
        assert reply.status == 200, reply
        self.counts[bidder] += 1
        page = self.receipt(person, self.counts[bidder])
        assert page["body"] == body
        return page

    def receipt(self, person: str, sheet: int) -> dict[str, Any]:
        """A receipt of round 1, once it is there."""

        def asked() -> Reply:
            path = f"/receipts/1/{sheet}.json"
            return Client(self.site.outside).ask("GET", path, self.tokens[person])

        wait_for("a receipt", lambda: asked().status == 200, SECONDS, every=0.5)
        page: dict[str, Any] = asked().json
        return page

    def submitted(self, bidder: str) -> list[dict[str, str]]:
        """What `auction submitted` lists."""
        files = self.folder / "setup.json", self.folder / "auction.journal"
        done = auction("submitted", *files, bidder)
        assert done.returncode == 0, done.stderr
        return list(csv.DictReader(done.stdout.splitlines()))


@pytest.fixture(scope="module")
def acting(program: pathlib.Path) -> Iterator[Acting]:
    with running(program, SETUP) as site:
        yield Acting(site)


def test_a_receipt_names_the_person_who_sent_the_sheet(acting: Acting) -> None:
    for person in ("alice", "bob"):
        page = acting.accepted("X", person, 1)
        assert (page["bidder"], page["by"]) == ("X", person)


def test_a_sheet_entered_by_a_clerk_names_the_clerk(acting: Acting) -> None:
    page = acting.accepted("Y", "clerk-1", 1)
    assert (page["bidder"], page["by"]) == ("Y", "clerk-1")


def test_two_persons_at_once_each_have_their_own_receipt(acting: Acting) -> None:
    pairs = [("alice", 2), ("bob", 3)]
    with ThreadPoolExecutor(2) as pool:
        sent = list(pool.map(lambda pair: acting.put(acting.tokens[pair[0]], pair[1]), pairs))
    assert [reply.status for reply, _ in sent] == [200, 200]
    first, acting.counts["X"] = acting.counts["X"] + 1, acting.counts["X"] + 2
    pages = [acting.receipt("alice", sheet) for sheet in (first, first + 1)]
    found = {(page["by"], page["body"]) for page in pages}
    assert found == {("alice", sent[0][1]), ("bob", sent[1][1])}


def test_a_bidder_s_own_token_is_refused_if_it_has_persons(acting: Acting) -> None:
    reply, _ = acting.put("X" * 16, 1)
    assert reply.refuses(401, "token")
    assert acting.status("X" * 16) == 401


def test_a_token_that_went_to_another_bidder_acts_for_its_own_bidder(acting: Acting) -> None:
    """Exchanged letters show at the first page, and in each receipt."""
    token = acting.tokens["clerk-1"]
    page = Client(acting.site.outside).ask("GET", "/v1/me", token).json
    assert page["name"] == "Y"
    before = len(acting.submitted("X"))
    acting.accepted("Y", "clerk-1", 2)
    assert len(acting.submitted("X")) == before


def test_a_person_sees_no_receipt_of_another_bidder(acting: Acting) -> None:
    """Y has a receipt for each of its own sheets, whatever X sent."""
    path = f"/receipts/1/{acting.counts['Y'] + 1}.json"
    reply = Client(acting.site.outside).ask("GET", path, acting.tokens["clerk-1"])
    assert reply.status == 404


@pytest.mark.parametrize(
    "path", ["/v1/me/bids?", "/v1/me/bids?a=b", "/v1/x/../me/bids", "//v1/me/bids"]
)
def test_a_sheet_at_another_spelling_of_its_path_has_time_and_person(
    acting: Acting, path: str
) -> None:
    reply, body = acting.put(acting.tokens["alice"], 4, path)
    assert reply.status == 200
    acting.counts["X"] += 1
    last = acting.submitted("X")[-1]
    assert (last["by"], last["body"], last["counts"]) == ("alice", body, "yes")
    assert last["taken"] != ""


@pytest.mark.parametrize("path", ["/v1/me/bids?", "/v1/me/bids?a=b"])
def test_a_sheet_that_did_not_come_through_nginx_is_listed_without_a_time(
    acting: Acting, path: str
) -> None:
    """The operator sends it with the bidder's token at the server's own port."""
    body = compact({"bids": [bid(5)], "round": 1})
    status, _ = answer_to(acting.site.server_port, text_of(f"PUT {path}", "X" * 16, body))
    assert status == 200
    acting.counts["X"] += 1
    rows = acting.submitted("X")
    assert len(rows) == acting.counts["X"]
    assert (rows[-1]["taken"], rows[-1]["by"], rows[-1]["counts"]) == ("", "", "yes")


def test_the_list_is_of_one_bidder_and_says_which_sheet_counts(acting: Acting) -> None:
    acting.accepted("Y", "clerk-1", 3)
    rows = acting.submitted("Y")
    assert len(rows) == acting.counts["Y"]
    assert {row["by"] for row in rows} == {"clerk-1"}
    assert [row["counts"] for row in rows] == ["no"] * (len(rows) - 1) + ["yes"]


def test_an_unknown_bidder_has_no_list(acting: Acting) -> None:
    files = acting.folder / "setup.json", acting.folder / "auction.journal"
    done = auction("submitted", *files, "Q")
    assert (done.returncode, done.stdout) == (1, "")
    assert "has no bidder Q" in done.stderr


def test_a_revoked_person_is_refused_and_its_receipts_stay(acting: Acting) -> None:
    page = acting.accepted("X", "eve", 6)
    acting.persons("--revoke", "X", "eve")
    acting.reload(lambda: acting.status(acting.tokens["eve"]) == 401)
    reply, _ = acting.put(acting.tokens["eve"], 7)
    assert reply.refuses(401, "token")
    assert acting.receipt("bob", page["sheet"]) == page
    assert acting.status(acting.tokens["bob"]) == 200
