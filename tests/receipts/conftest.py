"""Auctions whose sheets get receipts."""
import pathlib
from collections.abc import Iterator

import pytest

from tests.receipts.auction import ReceiptsAuction


@pytest.fixture
def auction(program: pathlib.Path, tmp_path: pathlib.Path) -> Iterator[ReceiptsAuction]:
    """An auction without a sheet, whose service does not run yet."""
    with ReceiptsAuction(program, tmp_path) as one:
        yield one


@pytest.fixture(scope="module")
def signed(
    program: pathlib.Path, tmp_path_factory: pytest.TempPathFactory
) -> Iterator[ReceiptsAuction]:
    """An auction in round 2, with five receipts. X sent two equal sheets in round 2."""
    with ReceiptsAuction(program, tmp_path_factory.mktemp("signed")) as one:
        for name, quantity in (("X", 2), ("Y", 9), ("X", 5)):
            one.send(name, quantity)
        one.close_by_hand(1)
        one.send("X", 4, 2, 110)
        one.send("X", 4, 2, 110)
        assert one.sign_once() == (0, "receipts 5\n")
        yield one
