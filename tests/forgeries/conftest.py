"""Small auctions that are played once, and forged in copies."""
import pathlib
from collections.abc import Iterator

import pytest

from tests.forgeries.auction import LAST, WitnessedAuction


@pytest.fixture(scope="session")
def begun(
    program: pathlib.Path, tmp_path_factory: pytest.TempPathFactory
) -> Iterator[WitnessedAuction]:
    """An auction in its last round, in which nobody has bid yet. Its server is stopped."""
    with WitnessedAuction(program, tmp_path_factory.mktemp("begun")) as auction:
        auction.play(LAST - 1)
    yield auction


@pytest.fixture(scope="session")
def honest(
    begun: WitnessedAuction, tmp_path_factory: pytest.TempPathFactory
) -> Iterator[WitnessedAuction]:
    """An auction that has ended, and that nobody forged. Its server is stopped."""
    with begun.branch(tmp_path_factory.mktemp("honest")) as auction:
        auction.play(LAST)
    yield auction
