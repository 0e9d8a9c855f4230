"""What `auction close` writes, and when."""
import json
import pathlib
from collections.abc import Iterator
from typing import NamedTuple

import pytest

from tests.close.auction import CloseAuction, set_up
from tests.lib.setups import OPERATOR

MADE = {"closing-1.json", "closings.jsonl", "results-1.json", "round-1.json"}


class Closed(NamedTuple):
    """An auction whose first round is closed, and the closing that was on disk when it was sent."""

    auction: CloseAuction
    on_disk: list[bytes]


@pytest.fixture(scope="module")
def closed(program: pathlib.Path, tmp_path_factory: pytest.TempPathFactory) -> Iterator[Closed]:
    """Closes a round with two sheets."""
    with CloseAuction(program, tmp_path_factory.mktemp("closed"), set_up(3, 2)) as auction:
        plan, on_disk = auction.kept / "closing-1.json", list[bytes]()
        auction.relay.look = lambda: on_disk.append(plan.read_bytes() if plan.exists() else b"")
        auction.bid(0, [0, 1])
        auction.bid(2, [0, 1])
        assert auction.yes(1).status == 0
        yield Closed(auction, on_disk)


def test_the_closing_is_on_disk_before_it_is_sent(closed: Closed) -> None:
    assert closed.on_disk == closed.auction.relay.closings
    assert len(closed.on_disk) == 1 and closed.on_disk[0]


def test_all_files_of_the_round_are_stored(closed: Closed) -> None:
    assert closed.auction.made() == MADE


def test_the_results_are_the_server_s(closed: Closed) -> None:
    page = closed.auction.ask("GET /v1/results", OPERATOR)
    assert closed.auction.stored("results-1.json") == page


def test_the_round_is_the_server_s_with_its_digest_and_its_seed(closed: Closed) -> None:
    auction = closed.auction
    digest = auction.journal_file.read_bytes().rpartition(b"POST ")[0][-32:].hex()
    stored = auction.stored("round-1.json")
    page = auction.ask("GET /v1/rounds/1", OPERATOR)
    assert stored == {**page, "digest": digest, "seed": stored["seed"]}


def test_the_closing_is_a_line_of_all_closings(closed: Closed) -> None:
    text = (closed.auction.kept / "closings.jsonl").read_text()
    assert text == '{"increment":10,"round":1,"ties":[]}\n'


def test_the_files_are_for_their_owner_only(closed: Closed) -> None:
    kept = closed.auction.kept
    assert kept.stat().st_mode & 0o777 == 0o700
    assert {file.stat().st_mode & 0o777 for file in kept.iterdir()} == {0o600}


# ---- What cannot be stored


@pytest.fixture
def full(small: CloseAuction) -> CloseAuction:
    """An auction one of whose files cannot be written, as on a full disk."""
    small.all_bid()
    (small.kept / "closings.jsonl.new").mkdir()
    return small


def test_it_says_what_was_closed_if_a_page_cannot_be_stored(full: CloseAuction) -> None:
    said = full.yes(1)
    assert said.status == 1
    assert '"closed": 1' in said.output
    assert "Call it again" in said.errors
    assert full.round() == 2


def test_the_next_call_stores_what_could_not_be_stored(full: CloseAuction) -> None:
    full.yes(1)
    (full.kept / "closings.jsonl.new").rmdir()
    assert "round 1 was closed before" in full.yes(1).errors
    assert full.round() == 2
    assert full.made() == MADE


def test_the_folder_of_another_auction_is_refused(
    program: pathlib.Path, tmp_path: pathlib.Path, small: CloseAuction
) -> None:
    small.all_bid()
    assert small.yes(1).status == 0
    with CloseAuction(program, tmp_path / "other", json.loads(small.document)) as other:
        other.kept = small.kept
        said = other.yes(1)
        assert said.status == 1
        assert "a folder of its own" in said.errors
        assert other.round() == 1
