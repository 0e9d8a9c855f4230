"""The system calls of servers on one journal, in order, and wrong records of them.

Three servers in turn use one journal. Two of them end at a refused call. Each accepted request must
be synced once, after its last write and before its reply begins. The head and the folder must be
synced before `ready`, and nothing may be synced for other requests.
"""
import pytest

from tests.crash.altered import altered
from tests.crash.auction import Auction
from tests.crash.order import fault_in
from tests.crash.record import Outcome, Recorded, planned

pytestmark = pytest.mark.needs("cc")

PLANNED = planned()
EACH_GENERATION = pytest.mark.parametrize(
    "number", range(len(PLANNED)), ids=["first", "second", "third"]
)


def planned_requests(outcome: Outcome) -> int:
    """The number of requests that must have this result."""
    return sum(
        request.outcome is outcome for generation in PLANNED for request in generation.requests
    )


# The number of records that are wrong in each way: one for each start, each start on an old
# journal, or each request.
STARTS = len(PLANNED)
LOGGED = planned_requests(Outcome.LOGGED)
PAGES = planned_requests(Outcome.PAGE)
REFUSED = planned_requests(Outcome.REFUSED)
WRONG = {
    "no sync of the journal at a start": STARTS,
    "no sync of the folder": STARTS,
    "the folder is synced after ready": STARTS,
    "the folder is synced twice": STARTS,
    "the head is synced twice": 1,
    "a torn record is cut off before it is synced": STARTS - 1,
    "an old journal is written again": STARTS - 1,
    "a sync for what is not logged: page": PAGES,
    "a sync for what is not logged: refused": REFUSED,
    "a write for what is not logged: page": PAGES,
    "a write for what is not logged: refused": REFUSED,
    "no sync of a text": LOGGED,
    "a text is synced after its reply begins": LOGGED,
    "a text is synced before its last write": LOGGED,
    "a text is synced twice": LOGGED,
    "a write of a text is missing": LOGGED,
}


@EACH_GENERATION
def test_each_request_has_its_planned_result(recorded: list[Recorded], number: int) -> None:
    assert recorded[number].outcomes == [request.outcome for request in PLANNED[number].requests]


@EACH_GENERATION
def test_a_server_ends_as_planned(recorded: list[Recorded], number: int) -> None:
    assert recorded[number].status == (1 if PLANNED[number].refused else 0)


@EACH_GENERATION
def test_the_record_has_each_byte_that_was_sent(recorded: list[Recorded], number: int) -> None:
    sent = sum(call.number for call in recorded[number].calls if call.name == "send")
    assert sent == recorded[number].received > 0


@EACH_GENERATION
def test_each_call_is_made_in_its_order(
    auction: Auction, recorded: list[Recorded], number: int
) -> None:
    assert fault_in(recorded[: number + 1], auction.setup.read_bytes()) is None


def test_there_are_90_wrong_records(recorded: list[Recorded]) -> None:
    assert {name for name, _changed in altered(recorded)} == set(WRONG)
    assert sum(WRONG.values()) == 90


@pytest.mark.parametrize(
    ("wrong", "count"), WRONG.items(), ids=[name.replace(" ", "-") for name in WRONG]
)
def test_a_wrong_record_is_refused(
    auction: Auction, recorded: list[Recorded], wrong: str, count: int
) -> None:
    document = auction.setup.read_bytes()
    faults = [fault_in(changed, document) for name, changed in altered(recorded) if name == wrong]
    assert (len(faults), faults.count(None)) == (count, 0), faults
