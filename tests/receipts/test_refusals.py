"""A sheet that is refused because no window is open: its bidder gets the time, signed."""
import calendar
import json
import pathlib
import time
from collections.abc import Iterator
from typing import Any

import pytest

from auction.formats.receipts import KeptRefusal, Refusal, faults, read_kept
from auction.formats.setup import Setup
from auction.formats.signatures import is_signed, new_key
from auction.receipts import Refusals, Sheets, Signer
from tests.lib import setups
from tests.lib.http import compact
from tests.lib.journals import journal_of
from tests.lib.served import bid
from tests.lib.site import Site, running
from tests.lib.tls import Client, Reply
from tests.lib.waiting import wait_for
from tests.schemas.described import validator

SECONDS = 60
X, Y = "X" * 16, "Y" * 16
SETUP = setups.setup(
    [setups.product("A", 9)], [setups.bidder(name, name * 16, 9) for name in ("X", "Y")]
)
DIGEST = "0" * 64


# ---- The log


def line(bidder: str = "X", second: str = "1796043600", by: str = "") -> bytes:
    """A line of nginx's log of refused sheets."""
    return compact({"bidder": bidder, "by": by, "second": second}) + b"\n"


@pytest.fixture
def log(tmp_path: pathlib.Path) -> pathlib.Path:
    return tmp_path / "refused.log"


@pytest.fixture
def setup(tmp_path: pathlib.Path) -> Setup:
    (tmp_path / "setup.json").write_text(json.dumps(SETUP))
    return Setup.read(tmp_path / "setup.json")


def numbers(found: list[Refusal]) -> list[tuple[str, int]]:
    return [(one.bidder, one.number) for one in found]


@pytest.mark.early
def test_each_bidder_counts_its_own_refused_sheets(log: pathlib.Path, setup: Setup) -> None:
    log.write_bytes(line() + line("Y") + line())
    assert numbers(Refusals(log, setup).read_on()) == [("X", 2), ("Y", 1)]


@pytest.mark.early
def test_a_refusal_has_its_time_and_its_person(log: pathlib.Path, setup: Setup) -> None:
    log.write_bytes(line(by="alice"))
    [found] = Refusals(log, setup).read_on()
    assert found == Refusal(setup.digest, "X", "alice", 1, "2026-11-30T13:00:00Z")


@pytest.mark.early
def test_only_new_refusals_are_signed(log: pathlib.Path, setup: Setup) -> None:
    refusals = Refusals(log, setup)
    log.write_bytes(line() + line("Y"))
    refusals.read_on()
    with open(log, "ab") as file:
        file.write(line("Y"))
    assert numbers(refusals.read_on()) == [("Y", 2)]
    assert not refusals.read_on()


@pytest.mark.early
def test_started_again_it_gives_the_same_refusals(log: pathlib.Path, setup: Setup) -> None:
    log.write_bytes(line() + line("Y"))
    assert Refusals(log, setup).read_on() == Refusals(log, setup).read_on()


@pytest.mark.early
def test_a_line_in_the_writing_waits(log: pathlib.Path, setup: Setup) -> None:
    refusals = Refusals(log, setup)
    log.write_bytes(line() + line()[:-9])
    assert numbers(refusals.read_on()) == [("X", 1)]
    log.write_bytes(line() + line())
    assert numbers(refusals.read_on()) == [("X", 2)]


OTHERS = {
    "no-json": b"}\n",
    "a-part-of-a-line": b'{"bidder":"X"' + line(),
    "no-object": b"[]\n",
    "no-bidder": b"{}\n",
    "another-bidder": line("Q"),
    "no-time": line(second=""),
    "a-list-of-bidders": compact({"bidder": ["X"], "by": "", "second": "1"}) + b"\n",
}


@pytest.mark.early
@pytest.mark.parametrize("text", OTHERS.values(), ids=OTHERS)
def test_another_line_does_not_count(log: pathlib.Path, setup: Setup, text: bytes) -> None:
    log.write_bytes(line() + text + line())
    assert numbers(Refusals(log, setup).read_on()) == [("X", 2)]


@pytest.mark.early
def test_without_a_log_receipts_are_signed(tmp_path: pathlib.Path, setup: Setup) -> None:
    (tmp_path / "receipts").mkdir()
    (tmp_path / "journal").write_bytes(journal_of(setup.document, []))
    sheets = Sheets(tmp_path / "journal", setup)
    signer = Signer(sheets, new_key(), tmp_path / "receipts", tmp_path / "missing")
    signer.look()
    assert signer.show() == 0


# ---- Through nginx


class Late:
    """Server, nginx, and the service of receipts, with a gate that is shut."""

    def __init__(self, site: Site) -> None:
        self.site, self.gate = site, site.folder / "gate"
        (self.gate / "open").unlink()
        site.begin_receipts()

    def put(self, token: str, body: object = None) -> Reply:
        sheet = body or {"bids": [bid(1)], "round": 1}
        client = Client(self.site.outside)
        return client.ask("PUT", "/v1/me/bids", token, body=compact(sheet))

    def page(self, token: str) -> dict[str, Any]:
        """The bidder's last refusal, or none."""
        reply = Client(self.site.outside).ask("GET", "/receipts/refused.json", token)
        page: dict[str, Any] = reply.json if reply.status == 200 else {}
        return page

    def number(self, token: str) -> int:
        return int(self.page(token).get("number", 0))

    def await_next(self, token: str, before: int) -> dict[str, Any]:
        wait_for("a refusal", lambda: self.number(token) > before, SECONDS, every=0.5)
        return self.page(token)

    def commitment(self) -> dict[str, Any]:
        text = (self.site.folder / "public/commitment.json").read_text()
        page: dict[str, Any] = json.loads(text)
        return page


@pytest.fixture(scope="module")
def late(program: pathlib.Path) -> Iterator[Late]:
    with running(program, SETUP) as site:
        yield Late(site)


NGINX = pytest.mark.needs("nginx", "openssl")


def seconds_of(page: dict[str, Any]) -> int:
    return calendar.timegm(time.strptime(page["time"], "%Y-%m-%dT%H:%M:%SZ"))


@NGINX
def test_a_refused_sheet_gets_its_time_signed(late: Late) -> None:
    count, before = late.number(X), int(time.time())
    reply = late.put(X)
    assert reply.refuses(409, "window")
    assert "x-taken" not in reply.head and "x-door" not in reply.head
    after, page = time.time(), late.await_next(X, count)
    assert before <= seconds_of(page) <= after
    assert validator("public.schema.json", "/$defs/refusal").is_valid(page)
    refusal, signature = KeptRefusal.of(dict(page))
    assert (refusal.bidder, refusal.number) == ("X", count + 1)
    assert is_signed(late.commitment()["key"], refusal.message(), signature)


@NGINX
def test_a_sheet_that_the_inner_door_refuses_has_the_second_at_which_it_was_whole(
    late: Late,
) -> None:
    count = late.number(X)
    body = compact({"bids": [], "round": 1})
    client = Client(late.site.outside)
    (late.gate / "open").touch()
    head = f"PUT /v1/me/bids HTTP/1.1\r\nhost: x\r\nauthorization: Bearer {X}\r\n"
    client.send(f"{head}content-length: {len(body)}\r\n\r\n".encode() + body[:5])
    time.sleep(1.1)  # the head came in an earlier second
    (late.gate / "open").unlink()
    before = int(time.time())
    client.send(body[5:])
    assert client.reply().refuses(409, "window")
    after = time.time()
    assert before <= seconds_of(late.await_next(X, count)) <= after


@NGINX
def test_a_sheet_that_the_server_refuses_has_none(late: Late) -> None:
    """The server's own 409 says which round is open."""
    (late.gate / "open").touch()
    assert late.put(X, {"bids": [], "round": 2}).json["code"] == "wrong_round"
    (late.gate / "open").unlink()
    count = late.number(X)
    assert late.put(X).refuses(409, "window")
    assert late.await_next(X, count)["number"] == count + 1


@NGINX
def test_a_rival_s_refusals_are_not_seen(late: Late) -> None:
    count = late.number(X)
    assert late.put(X).refuses(409, "window")
    late.await_next(X, count)
    assert late.page(Y) == {}


@NGINX
def test_a_request_without_a_token_is_not_counted(late: Late) -> None:
    log = late.site.folder / "log/refused.log"
    before = log.read_bytes()
    assert late.put("").refuses(401, "token")
    count = late.number(X)
    assert late.put(X).refuses(409, "window")
    late.await_next(X, count)
    added = log.read_bytes().removeprefix(before).splitlines()
    assert {json.loads(one)["bidder"] for one in added} == {"X"}


@NGINX
def test_a_bidder_s_file_may_have_a_refusal(late: Late, tmp_path: pathlib.Path) -> None:
    count = late.number(X)
    late.put(X)
    page = late.await_next(X, count)
    journal = journal_of((late.site.folder / "setup.json").read_bytes(), [])
    file = tmp_path / "X.jsonl"

    def found(changed: dict[str, Any]) -> list[str]:
        lines = [late.commitment(), {"bidder": "X"}, changed]
        file.write_text("".join(json.dumps(one) + "\n" for one in lines))
        return faults(read_kept(file), journal)

    assert found(page) == []
    assert found({**page, "time": "2026-01-01T00:00:00Z"}) == [
        f"refusal {page['number']} is not signed by the committed key"
    ]
