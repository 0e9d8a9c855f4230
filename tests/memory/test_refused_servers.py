"""A server with a refused allocation ends before it is ready, or answers one request by 503.

All pages of the auction are then as they were without that request, and the repeated request gets
the reply without a refusal. At the end all pages are as without a refusal. A server that is started
again with the journal has the same pages.
"""
import pathlib
from collections.abc import Callable

import pytest

from tests.memory.served import SERVED, TWO_ROUNDS, Seen, Served, Trial, is_served_but_once
from tests.memory.shim import Run, Shim, refuse_each

pytestmark = pytest.mark.needs("cc")


def refuse_each_of(serve: Callable[[int], Run[Seen | None]]) -> None:
    """Refuses each allocation of a server. There are at least 300."""
    wanted, wrong = refuse_each(serve, is_served_but_once)
    assert wrong == []
    assert wanted.end == (0, b"", b"")
    assert wanted.done is not None and (wanted.done.refusals, wanted.done.changed) == (0, 0)
    assert wanted.growths >= 300


@pytest.mark.parametrize("served", SERVED.values(), ids=SERVED)
def test_server_answers_each_refused_allocation_once(
    shim: Shim, tmp_path: pathlib.Path, served: Served
) -> None:
    refuse_each_of(Trial(shim, tmp_path, served).serve)


def test_server_with_a_journal_answers_each_refused_allocation_once(
    shim: Shim, tmp_path: pathlib.Path
) -> None:
    refuse_each_of(Trial(shim, tmp_path, TWO_ROUNDS).serve_with_journal)
