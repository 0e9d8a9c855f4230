"""What a script reads: tables as CSV during an auction, and a report as JSON."""
import hashlib
import json
import pathlib

import pytest

from tests.lib.http import text_of
from tests.lib.journals import journal_of
from tests.lib.paths import auction
from tests.lib.setups import OPERATOR, bidder, product
from tests.lib.setups import setup as setup_of

pytestmark = pytest.mark.early
DOCUMENT = json.dumps(
    setup_of([product("A", 2, 100)], [bidder(n, n * 16, 2) for n in "XY"])
).encode()
REPORT = {
    "round": 2,
    "sheets": ["X"],
    "state": "open",
    "time": "2026-01-01T15:00:00Z",
    "until": "2026-01-01T15:10:00Z",
    "waits_for": "Round 2 is open until 15:10 UTC on January 1.",
}
# Each table of a closed round 1, in which X asks for 2 blocks and Y for 1, of 2.
TABLES = {
    "product_results": (
        "round,product,supply,aggregate_demand,excess_demand,start_of_round_price,clock_price,"
        "posted_price,next_clock_price,increment\n1,A,2,3,1,100,100,100,110,10\n"
    ),
    "processed_demands": "round,bidder,product,processed_demand\n1,X,A,2\n1,Y,A,1\n",
    "activity": (
        "round,bidder,sheet_in_force,eligibility,activity,next_eligibility\n"
        "1,X,yes,2,2,2\n1,Y,yes,2,1,2\n"
    ),
    "winners": "bidder,product,blocks,posted_price,payment\n",
}


def sheet(name: str, quantity: int, *lines: str) -> bytes:
    bids = [{"price": 100, "product": 0, "quantity": quantity}]
    body = json.dumps({"bids": bids, "round": 1}).encode()
    return text_of("PUT /v1/me/bids", name * 16, body, *lines)


@pytest.fixture
def files(tmp_path: pathlib.Path) -> tuple[pathlib.Path, pathlib.Path]:
    """A set-up and the journal of its first round."""
    closing = json.dumps({"increment": 10, "round": 1, "ties": []}).encode()
    texts = [sheet("X", 2), sheet("Y", 1), text_of("POST /v1/close", OPERATOR, closing)]
    (tmp_path / "setup.json").write_bytes(DOCUMENT)
    (tmp_path / "journal").write_bytes(journal_of(DOCUMENT, texts))
    return tmp_path / "setup.json", tmp_path / "journal"


@pytest.mark.parametrize("name", TABLES)
def test_recount_prints_a_table_as_csv(files: tuple[pathlib.Path, pathlib.Path], name: str) -> None:
    done = auction("recount", *files, "--table", name)
    assert (done.returncode, done.stdout, done.stderr) == (0, TABLES[name], "")


def test_the_table_of_sheets_has_when_and_by_whom_each_was_sent(
    files: tuple[pathlib.Path, pathlib.Path]
) -> None:
    """As its receipt has it: a line that is there twice, or is no time, says nothing."""
    texts = [
        sheet("X", 2, "taken: 1796043600", "by: alice"),
        sheet("X", 1, "taken: 1796043601", "taken: 1796043601", "by: a b"),
        sheet("Y", 1),
    ]
    files[1].write_bytes(journal_of(DOCUMENT, texts))
    digests = [hashlib.sha256(text).hexdigest() for text in texts]
    rows = [
        "sheet,round,bidder,bids,in_force,sha256,taken,by",
        f"1,1,X,1,no,{digests[0]},2026-11-30T13:00:00Z,alice",
        f"2,1,X,1,yes,{digests[1]},,",
        f"3,1,Y,1,yes,{digests[2]},,",
    ]
    done = auction("recount", *files, "--table", "sheets")
    assert (done.returncode, done.stdout.splitlines(), done.stderr) == (0, rows, "")


@pytest.fixture
def folder(tmp_path: pathlib.Path) -> pathlib.Path:
    """An auction's folder with a report of its conductor."""
    (tmp_path / "setup.json").write_bytes(DOCUMENT)
    (tmp_path / "operator.token").write_text(f"{OPERATOR}\n")
    files = {"setup": "setup.json", "token": "operator.token", "journal": "auction.journal"}
    settings = {"url": "http://127.0.0.1:9", "readers": "root", **files}
    (tmp_path / "conductor.json").write_text(json.dumps(settings))
    words = [tmp_path / name for name in ("setup.json", "kept", "public")]
    assert auction("commit", *words).returncode == 0
    (tmp_path / "operator").mkdir()
    (tmp_path / "operator/conductor.json").write_text(json.dumps(REPORT))
    return tmp_path


def test_status_prints_the_report_as_json(folder: pathlib.Path) -> None:
    done = auction("status", folder, "--json")
    assert json.loads(done.stdout) == REPORT, done.stderr
    assert done.returncode == 1 and "no conductor is running" in done.stderr, "it is old"


@pytest.mark.root
def test_ready_prints_its_checks_as_json(folder: pathlib.Path) -> None:
    done = auction("ready", folder, "--json")
    found = json.loads(done.stdout)
    checks = {check["check"]: (check["ok"], check["words"]) for check in found["checks"]}
    assert done.returncode == 1 and not found["ready"]
    words = "draw tokens at random (openssl rand -hex 16): the operator, X, Y"
    assert checks["set-up"] == (False, words)
    assert checks["operator's token"] == (True, "of this set-up")
