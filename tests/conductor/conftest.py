"""The auctions of the conductor's tests."""
import contextlib
import pathlib
from collections.abc import Callable, Iterator
from typing import Any

import pytest

from tests.lib.conducted import ConductedAuction, conducted

Conduct = Callable[..., ConductedAuction]


@pytest.fixture
def conduct(program: pathlib.Path) -> Iterator[Conduct]:
    """Begins an auction under a conductor. All end with the test."""
    with contextlib.ExitStack() as stack:

        def begin(*more: Any, **options: Any) -> ConductedAuction:
            return stack.enter_context(conducted(program, *more, **options))

        yield begin
