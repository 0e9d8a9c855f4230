"""Auctions that `auction close` closes."""
import pathlib
from collections.abc import Callable, Iterator

import pytest

from tests.close.auction import CloseAuction, set_up


@pytest.fixture
def auction_of(
    program: pathlib.Path, tmp_path: pathlib.Path
) -> Iterator[Callable[[object], CloseAuction]]:
    """Starts auctions of set-ups. All end with the test."""
    started: list[CloseAuction] = []

    def start(setup: object) -> CloseAuction:
        started.append(CloseAuction(program, tmp_path / str(len(started)), setup))
        return started[-1]

    yield start
    for one in started:
        one.stop()


@pytest.fixture
def auction(auction_of: Callable[[object], CloseAuction]) -> CloseAuction:
    """An auction of three bidders and two products, in round 1, without a sheet."""
    return auction_of(set_up(3, 2))


@pytest.fixture
def small(auction_of: Callable[[object], CloseAuction]) -> CloseAuction:
    """An auction of two bidders and one product, in round 1, without a sheet."""
    return auction_of(set_up(2, 1))
