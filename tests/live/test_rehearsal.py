"""examples/rehearsal.json played live by examples/bidder.py: the results are those of the report.

It is played at the server's port, and over TLS behind nginx, where bidders first wait for a window.
"""
import json
import tempfile
from collections.abc import Iterator
from pathlib import Path

import pytest

from auction.formats.receipts import faults, read_kept
from tests.lib.server import Server
from tests.lib.site import Site
from tests.lib.waiting import wait_for
from tests.live.rehearsal import ROUNDS, SETUP, SINCERE, WON, Rehearsal

pytestmark = pytest.mark.slow
NEEDS_NGINX = pytest.mark.needs("nginx", "openssl")
EACH_BIDDER = pytest.mark.parametrize("name", SINCERE)


def wait_for_refusals(log: Path, count: int) -> None:
    """Waits until nginx has refused this number of sheets."""
    wait_for(f"{count} refusals", lambda: log.read_text().count('"status":409') >= count, 30)


@pytest.fixture(scope="module")
def at_the_server(program: Path, tmp_path_factory: pytest.TempPathFactory) -> Rehearsal:
    """The rehearsal, played at the server's port."""
    folder = tmp_path_factory.mktemp("rehearsal")
    setup = folder / "setup.json"
    setup.write_text(json.dumps(SETUP))
    with Server(program, setup).ready() as server:
        url = f"http://127.0.0.1:{server.port}"
        with Rehearsal(folder, server.port, url, 0.1) as rehearsal:
            rehearsal.play()
    return rehearsal


@pytest.fixture(scope="module")
def behind_nginx(program: Path) -> Iterator[Rehearsal]:
    """The rehearsal, played over TLS behind nginx, in a folder that nginx's workers can reach.

    No window is open at first, so the bidders wait for one.
    """
    with tempfile.TemporaryDirectory() as name:
        folder = Path(name)
        site = Site(folder, program, SETUP)
        site.begin_receipts()
        gate, log = folder / "gate" / "open", folder / "log" / "access.log"
        gate.unlink()
        url, certificate = f"https://localhost:{site.outside}", str(folder / "cert.pem")
        try:
            with Rehearsal(folder, site.server_port, url, 0.4, CA=certificate) as rehearsal:
                wait_for_refusals(log, len(SINCERE))
                gate.touch()
                rehearsal.play()
            yield rehearsal
        finally:
            site.stop()


@pytest.fixture(params=["at_the_server", pytest.param("behind_nginx", marks=NEEDS_NGINX)])
def played(request: pytest.FixtureRequest) -> Rehearsal:
    """The rehearsal, played in each way."""
    played: Rehearsal = request.getfixturevalue(request.param)
    return played


def test_the_rounds_are_those_of_the_report(played: Rehearsal) -> None:
    assert played.lines == ROUNDS


def test_each_sincere_script_has_a_bidder(played: Rehearsal) -> None:
    assert list(played.bidders) == SINCERE


@EACH_BIDDER
def test_a_bidder_ends_without_an_error(at_the_server: Rehearsal, name: str) -> None:
    status, _output, errors = at_the_server.ended[name]
    assert (status, errors) == (0, "")


@NEEDS_NGINX
@EACH_BIDDER
def test_a_bidder_says_once_that_it_waits_for_a_window(behind_nginx: Rehearsal, name: str) -> None:
    """And whether the refusal is signed, which may take long on a busy machine."""
    status, _output, errors = behind_nginx.ended[name]
    first, refusal = errors.splitlines()
    assert (status, first) == (0, "Waiting to send the sheet: the round is not open.")
    kept = read_kept(behind_nginx.bidders[name].receipts).refusals
    if kept:
        assert refusal.startswith(f"refusal {kept[0].refusal.number} is signed, of ")
    else:
        assert refusal == "no signed refusal within 5 s: call the operator"


@EACH_BIDDER
def test_a_bidder_misses_no_round(played: Rehearsal, name: str) -> None:
    lines = played.ended[name][1].splitlines()
    rounds = sum(line.startswith("round ") for line in ROUNDS)
    assert sum(line.startswith("slip ") for line in lines) == rounds


@EACH_BIDDER
def test_a_bidder_prints_what_it_won(played: Rehearsal, name: str) -> None:
    assert played.ended[name][1].splitlines()[-1] == WON[name]


# ---- Receipts, which are published behind nginx


@NEEDS_NGINX
@EACH_BIDDER
def test_the_journal_has_each_sheet_with_a_receipt(behind_nginx: Rehearsal, name: str) -> None:
    file = read_kept(behind_nginx.bidders[name].receipts)
    assert faults(file, (behind_nginx.folder / "auction.journal").read_bytes()) == []


@NEEDS_NGINX
@EACH_BIDDER
def test_a_bidder_stores_each_sheet_that_it_sent(behind_nginx: Rehearsal, name: str) -> None:
    receipts = read_kept(behind_nginx.bidders[name].receipts).receipts
    assert [receipt for receipt in receipts if not receipt.sent] == []


@NEEDS_NGINX
@EACH_BIDDER
def test_a_bidder_stores_each_published_receipt(behind_nginx: Rehearsal, name: str) -> None:
    receipts = read_kept(behind_nginx.bidders[name].receipts).receipts
    published = list((behind_nginx.folder / "receipts" / name).glob("[0-9]*.json"))
    assert len(receipts) == len(published) > 0
