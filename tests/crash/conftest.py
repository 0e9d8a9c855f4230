"""Fixtures of the tests with crashes."""

import pytest
from pathlib import Path

from tests.crash.auction import Auction, auction_in
from tests.crash.journals import Ten, journal_of_ten
from tests.crash.pair_plan import planned_pair
from tests.crash.record import Recorded, planned, record
from tests.crash.shims import Shims


@pytest.fixture(scope="module")
def auction(program: Path, tmp_path_factory: pytest.TempPathFactory) -> Auction:
    """An auction, in a folder of this module."""
    return auction_in(tmp_path_factory.mktemp("auction"), program)


@pytest.fixture(scope="module")
def ten(auction: Auction) -> Ten:
    """A journal of ten requests."""
    return journal_of_ten(auction, auction.folder / "ten.journal")


@pytest.fixture(scope="session")
def shims(tmp_path_factory: pytest.TempPathFactory) -> Shims:
    """The libraries that refuse and record system calls. They need a C compiler."""
    return Shims.built_in(tmp_path_factory.mktemp("shims"))


@pytest.fixture(scope="module")
def recorded(auction: Auction, shims: Shims) -> list[Recorded]:
    """Three servers in turn on one journal, `recorded.journal`, and their system calls."""
    journal = auction.folder / "recorded.journal"
    return [record(auction, shims, journal, generation) for generation in planned()]


@pytest.fixture(scope="module")
def pair(auction: Auction, shims: Shims) -> list[Recorded]:
    """Four servers in turn on a journal in two files, `one/` and `two/pair.journal`."""
    first, second = (auction.folder / name / "pair.journal" for name in ("one", "two"))
    for file in (first, second):
        file.parent.mkdir()
    return [record(auction, shims, first, generation, second) for generation in planned_pair()]
