"""The system calls of servers on the two files of a journal, in order, and wrong records of them.

Four servers in turn use one journal. All but the last end at a refused call, after which the two
files differ. Each accepted request must be synced once on each file before its reply begins.
"""
import pytest

from tests.crash.auction import Auction
from tests.crash.pair_altered import altered_pair
from tests.crash.pair_order import fault_in_pair
from tests.crash.pair_plan import planned_pair
from tests.crash.record import Outcome, Recorded

pytestmark = pytest.mark.needs("cc")

PLANNED = planned_pair()
EACH_GENERATION = pytest.mark.parametrize("number", range(len(PLANNED)))
OUTCOMES = [request.outcome for generation in PLANNED for request in generation.requests]
LOGGED = OUTCOMES.count(Outcome.LOGGED)
UNLOGGED = OUTCOMES.count(Outcome.PAGE) + OUTCOMES.count(Outcome.REFUSED)
STARTS = len(PLANNED)
# The number of records that are wrong in each way. A start writes two heads, or one copy if the
# first file has more than the second: at the second and at the fourth start.
WRONG = {
    "a file is not synced before ready": 2 * STARTS,
    "a torn record is cut off before a file is synced": 2 * (STARTS - 1),
    "a folder is not synced": 2 * STARTS,
    "a folder is synced twice": 2 * STARTS,
    "a start writes other bytes": 4,
    "a sync for what is not logged": 2 * UNLOGGED,
    "a write for what is not logged": 2 * UNLOGGED,
    "no sync of a text on a file": 2 * LOGGED,
    "a text is synced after its reply begins": 2 * LOGGED,
    "a text is synced twice on a file": 2 * LOGGED,
    "a write of a text is missing on a file": 2 * LOGGED,
    "a text is synced before its last write": 2 * LOGGED,
    "the second file is written first": LOGGED,
    "the second file is synced first": LOGGED,
}


@EACH_GENERATION
def test_each_request_has_its_planned_result(pair: list[Recorded], number: int) -> None:
    assert pair[number].outcomes == [request.outcome for request in PLANNED[number].requests]


@EACH_GENERATION
def test_a_server_ends_as_planned(pair: list[Recorded], number: int) -> None:
    assert pair[number].status == (1 if PLANNED[number].refused else 0)


@EACH_GENERATION
def test_each_call_is_made_in_its_order(
    auction: Auction, pair: list[Recorded], number: int
) -> None:
    assert fault_in_pair(pair[: number + 1], auction.setup.read_bytes()) is None


def test_each_kind_of_wrong_record_is_tried(pair: list[Recorded]) -> None:
    assert {name for name, _changed in altered_pair(pair)} == set(WRONG)


@pytest.mark.parametrize(
    ("wrong", "count"), WRONG.items(), ids=[name.replace(" ", "-") for name in WRONG]
)
def test_a_wrong_record_is_refused(
    auction: Auction, pair: list[Recorded], wrong: str, count: int
) -> None:
    document = auction.setup.read_bytes()
    changed = [records for name, records in altered_pair(pair) if name == wrong]
    faults = [fault_in_pair(records, document) for records in changed]
    assert (len(faults), faults.count(None)) == (count, 0), faults
