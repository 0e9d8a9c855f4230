"""Auctions to which the operator commits."""
import pathlib
from collections.abc import Iterator

import pytest

from tests.close.auction import CloseAuction, set_up


@pytest.fixture
def small(program: pathlib.Path, tmp_path: pathlib.Path) -> Iterator[CloseAuction]:
    """An auction of two bidders and one product, in round 1, with a commitment."""
    with CloseAuction(program, tmp_path, set_up(2, 1)) as auction:
        yield auction
