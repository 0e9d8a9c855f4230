"""A round is not closed while a request is on its way to the server."""
from collections.abc import Callable

import pytest

from auction.conductor.observed import Limits
from auction.conductor.report import State
from tests.conductor.conftest import Conduct
from tests.conductor.finished import finish
from tests.lib.conducted import ConductedAuction
from tests.lib.journals import texts_of


@pytest.fixture
def waiting(conduct: Conduct) -> ConductedAuction:
    """An auction whose window and drain are over while a request is on its way."""
    auction = conduct()
    auction.play(State.DRAINING)
    auction.connections = frozenset({"a"})
    auction.clock.sleep(10)
    auction.look()
    auction.clock.sleep(Limits.freeze)
    auction.look()
    return auction


def test_a_closing_waits_for_a_request_that_is_on_its_way(waiting: ConductedAuction) -> None:
    waiting.wait(400)
    assert waiting.state is State.DRAINING
    assert "Requests are on their way to the server" in waiting.words
    assert waiting.current_round() == 1
    waiting.connections = frozenset()
    assert waiting.look() is State.CLOSED


def test_a_sheet_that_comes_while_the_closing_waits_counts(waiting: ConductedAuction) -> None:
    assert waiting.put("X", 1, 1, 100)
    waiting.connections = frozenset()
    waiting.rounds = 1
    finish(waiting)


def test_a_connection_from_after_the_shut_doors_is_not_waited_for(
    waiting: ConductedAuction,
) -> None:
    waiting.connections = frozenset({"b"})
    assert waiting.look() is State.CLOSED


def test_a_conductor_that_starts_then_waits_for_all_that_it_finds(
    waiting: ConductedAuction,
) -> None:
    waiting.connections = frozenset({"b"})
    waiting.conductor = waiting.fresh()
    assert waiting.look() is State.DRAINING
    waiting.connections = frozenset()
    assert waiting.look() is State.CLOSED


def ending(auction: ConductedAuction) -> Callable[[int], frozenset[str]]:
    """Connections, of which the only one has its reply just when someone looks at them."""

    def pending(_port: int) -> frozenset[str]:
        if ("X", 1) not in auction.sent:
            auction.sent.add(("X", 1))
            assert auction.put("X", 1, 1, 100)
        return frozenset()

    return pending


@pytest.mark.parametrize("is_running", [True, False], ids=["running", "started again"])
def test_a_sheet_that_ends_while_connections_are_looked_at_is_frozen_and_counts(
    waiting: ConductedAuction, is_running: bool
) -> None:
    """The journal was frozen once, with all sheets of the round."""
    waiting.rounds = 1
    if not is_running:
        waiting.conductor = waiting.fresh()
    setattr(waiting.conductor.observer, "pending", ending(waiting))
    assert waiting.look() is State.CLOSED
    waiting.play()
    notices = waiting.conductor.context.notices.entries()
    frozen = [entry.says["digest"] for entry in notices if entry.kind == "frozen"]
    assert frozen == [digest_before_closing(waiting)]


def digest_before_closing(auction: ConductedAuction) -> str:
    """The digest of the last sheet in the journal, before the one closing."""
    files = [(auction.folder / name).read_bytes() for name in ("setup.json", "auction.journal")]
    return texts_of(files[0], files[1])[-2][1]
