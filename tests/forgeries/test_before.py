"""Forgeries before the closing, while no digest of the sheets is published yet."""
import pathlib
import random
import shutil
from collections.abc import Iterator
from typing import NamedTuple

import pytest

from tests.forgeries.auction import LAST, WitnessedAuction
from tests.forgeries.test_after import changed as with_changed_bid
from tests.lib.journals import journal_of


@pytest.fixture
def last(begun: WitnessedAuction, tmp_path: pathlib.Path) -> Iterator[WitnessedAuction]:
    """An auction in its last round, in which all have bid and saved their receipts."""
    with begun.branch(tmp_path / "last") as auction:
        auction.bid()
        yield auction


# ---- Forged sheets


def restart_with(auction: WitnessedAuction, texts: list[bytes]) -> None:
    """Stops the server, and starts it again with a journal of these requests."""
    auction.stop()
    auction.journal_file.write_bytes(journal_of(auction.document, texts))
    auction.restart()


def cut(auction: WitnessedAuction) -> None:
    """Cuts off the last sheet, which is Y's."""
    restart_with(auction, auction.texts()[:-1])


def change(auction: WitnessedAuction) -> None:
    """Changes the price of X."""
    restart_with(auction, with_changed_bid(auction.texts()))


def add(auction: WitnessedAuction) -> None:
    """Sends a sheet with the token of Z."""
    auction.send("Z", 0, 115)


# What the operator does, whose receipts show it, and a bidder whose receipts do not.
FORGERIES = {
    "a-sheet-cut-off": (cut, "Y", "X"),
    "a-bid-changed": (change, "X", "Y"),
    "a-sheet-added": (add, "Z", "Y"),
}


class Forged(NamedTuple):
    """A forged auction that has ended, the victim, and another bidder."""

    auction: WitnessedAuction
    victim: str
    other: str


@pytest.fixture(scope="module", params=FORGERIES.values(), ids=list(FORGERIES))
def forged(
    begun: WitnessedAuction,
    tmp_path_factory: pytest.TempPathFactory,
    request: pytest.FixtureRequest,
) -> Iterator[Forged]:
    """Forges a sheet of the last round, closes it, and publishes it."""
    forge, victim, other = request.param
    with begun.branch(tmp_path_factory.mktemp("forged")) as auction:
        auction.bid()
        forge(auction)
        assert auction.close() == ""
    yield Forged(auction, victim, other)


def test_what_is_published_does_not_show_it(forged: Forged) -> None:
    assert forged.auction.failed() == {}


def test_receipts_of_another_bidder_do_not_show_it(forged: Forged) -> None:
    assert forged.auction.failed(receipts=forged.other) == {}


def test_the_victim_s_receipts_show_it(forged: Forged) -> None:
    assert list(forged.auction.shown(receipts=forged.victim)) == ["receipts"]


def test_check_receipts_shows_it(forged: Forged) -> None:
    auction = forged.auction
    file = auction.folder / f"{forged.victim}.jsonl"
    copy = "--commitment", auction.saved / "commitment.json"
    done = auction.run("check-receipts", file, auction.journal_file, *copy)
    assert done.returncode == 1
    assert done.stdout.startswith("FAILED ")


# ---- Forged tie-breaking numbers


def ties_of(chance: random.Random, first: int, second: int) -> list[list[int]]:
    """Draws numbers again and again, until the first bidder comes before the second."""
    while True:
        numbers = chance.sample(range(1, 1000), 3)
        if numbers[first] < numbers[second]:
            return [[bidder, 0, number] for bidder, number in enumerate(numbers)]


def test_numbers_that_were_drawn_until_a_friend_won_are_shown(last: WitnessedAuction) -> None:
    """The operator looks at the sheets, draws until Y keeps its block, and closes by hand."""
    last.close_by_hand(LAST, 10, ties_of(random.Random(1), 0, 1))
    assert "stored now" in last.close()
    assert list(last.shown()) == ["ties"]


def test_a_chain_that_was_exchanged_is_shown(last: WitnessedAuction) -> None:
    """The operator looks at the sheets, makes another chain, and closes by it."""
    other = last.folder / "other"
    last.succeed("commit", last.setup_file, other, other, "--journal", other / "none")
    shutil.copy(other / "chain.json", last.kept / "chain.json")
    shutil.copy(other / "commitment.json", last.public / "commitment.json")
    assert last.close() == ""
    assert list(last.shown()) == ["ties"]
