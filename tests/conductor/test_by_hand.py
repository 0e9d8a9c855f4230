"""A closing by hand goes through the same doors as the conductor's, at its announced time."""
import contextlib
import fcntl
import json
from collections.abc import Callable, Iterator
from typing import Any

import pytest

from auction.conductor import hand, settings
from auction.conductor.closing import NotClosed, Outcome, Ties
from auction.conductor.hand import Hand, Word
from auction.conductor.observed import Limits, Reason
from auction.conductor.report import State
from auction.standby.mark import FENCED, Mark, Marked
from tests.conductor.conftest import Conduct
from tests.conductor.finished import check
from tests.conductor.test_notices import faults_of, of_kind
from tests.lib.clock import BEGIN
from tests.lib.conducted import ConductedAuction
from tests.lib.disk import Disk, Killed

WORD = Word([10], Ties.OF_CHAIN, frozenset())
WINDOW = [(60, 90)]


def hand_of(auction: ConductedAuction) -> Hand:
    """A person at this auction's folder."""
    return Hand(auction.fresh().context.auction, auction.clock, auction.lines.append)


@pytest.fixture(autouse=True)
def connections(monkeypatch: pytest.MonkeyPatch) -> set[str]:
    """The connections on their way to the server."""
    found: set[str] = set()
    monkeypatch.setattr(hand, "pending", lambda _port: frozenset(found))
    return found


@pytest.fixture
def opened(conduct: Conduct) -> ConductedAuction:
    """An auction without a timetable, whose gate a person has opened. Both bidders have a sheet."""
    auction = conduct([], publish=30, rounds=1)
    (auction.folder / "gate/open").touch()
    assert auction.put("X", 1, 2, 100) and auction.put("Y", 1, 1, 100)
    return auction


@pytest.fixture
def over(conduct: Conduct) -> ConductedAuction:
    """An auction whose conductor was killed in the window, which is over."""
    auction = conduct(WINDOW, publish=30, rounds=1)
    auction.play(State.OPEN)
    auction.bid()
    auction.clock.sleep(40)
    return auction


def at_closing(by: Hand, look: Callable[[], object]) -> None:
    """Lets a function look when the closing is sent."""
    ask = by.auction.operator.ask

    def asked(path: str, body: bytes | None = None, seconds: float = 300) -> Any:
        if body is not None:
            look()
        return ask(path, body, seconds)

    setattr(by.auction.operator, "ask", asked)


def while_waiting(auction: ConductedAuction, act: Callable[[], object]) -> None:
    """Does something the first time that somebody waits."""
    usual, acts = auction.clock.sleep, [act]

    def sleep(seconds: float) -> None:
        if acts:
            acts.pop()()
        usual(seconds)

    setattr(auction.clock, "sleep", sleep)


def gate_of(auction: ConductedAuction) -> set[str]:
    """The kinds of files in the gate."""
    return {name.split("-")[0] for name in names_in_gate(auction)}


def names_in_gate(auction: ConductedAuction) -> Iterator[str]:
    return (file.name for file in (auction.folder / "gate").iterdir())


# ---- Doors and curtain


def test_both_doors_are_shut_and_the_curtain_is_drawn_when_the_closing_is_sent(
    opened: ConductedAuction,
) -> None:
    by, seen = hand_of(opened), list[set[str]]()
    at_closing(by, lambda: seen.append(gate_of(opened)))
    assert by.close(1, WORD).outcome is Outcome.CLOSED
    assert seen == [{"curtain"}]


def test_the_outer_door_is_shut_at_once_and_the_inner_one_after_the_drain(
    opened: ConductedAuction,
) -> None:
    by, seen = hand_of(opened), list[set[str]]()
    while_waiting(opened, lambda: seen.append(gate_of(opened)))
    by.close(1, WORD)
    assert seen == [{"late", "curtain"}]
    assert opened.clock.wall() >= BEGIN + 10


def test_bidders_see_the_new_state_when_the_curtain_lifts(opened: ConductedAuction) -> None:
    by = hand_of(opened)
    by.close(1, WORD)
    assert opened.clock.wall() < BEGIN + 30
    by.wait_for_curtain()
    assert opened.clock.wall() == BEGIN + 30


def test_a_sheet_that_ends_in_the_drain_counts(opened: ConductedAuction) -> None:
    by = hand_of(opened)
    while_waiting(opened, lambda: opened.put("X", 1, 1, 100))
    by.close(1, WORD)
    assert opened.audit()[1].startswith("A 100 100 100 - ")


def test_it_waits_for_requests_that_are_on_their_way(
    opened: ConductedAuction, connections: set[str]
) -> None:
    by, usual = hand_of(opened), opened.clock.sleep
    connections.add("a")

    def sleep(seconds: float) -> None:
        usual(seconds)
        if opened.clock.wall() > BEGIN + 25 and connections:
            assert opened.current_round() == 1
            opened.put("X", 1, 1, 100)
            connections.clear()

    setattr(opened.clock, "sleep", sleep)
    by.close(1, WORD)
    assert opened.audit()[1].startswith("A 100 100 100 - ")
    assert any("waits for requests on their way" in line for line in opened.lines)


def test_a_sheet_that_ends_while_connections_are_looked_at_counts(
    opened: ConductedAuction, monkeypatch: pytest.MonkeyPatch
) -> None:
    """Its reply is there just then, so it is not seen on its way. It is frozen, too."""
    sent: list[bool] = []

    def ends(_port: int) -> frozenset[str]:
        if opened.clock.wall() >= BEGIN + 10 + Limits.freeze and not sent:
            sent.append(opened.put("X", 1, 1, 100))
        return frozenset()

    monkeypatch.setattr(hand, "pending", ends)
    assert hand_of(opened).close(1, WORD).outcome is Outcome.CLOSED
    assert sent == [True]
    assert opened.audit()[1].startswith("A 100 100 100 - ")


def test_a_connection_from_after_the_shut_doors_is_not_waited_for(
    opened: ConductedAuction, connections: set[str]
) -> None:
    by = hand_of(opened)
    at_closing(by, lambda: connections.add("b"))
    assert by.close(1, WORD).outcome is Outcome.CLOSED


def test_a_machine_that_was_fenced_while_a_person_was_asked_closes_nothing(
    opened: ConductedAuction,
) -> None:
    by, before = hand_of(opened), set(names_in_gate(opened))
    Mark(FENCED, "taker").store(opened.folder)
    with pytest.raises(Marked), by.alone():
        by.close(1, WORD)
    assert opened.current_round() == 1
    assert set(names_in_gate(opened)) == before


def test_without_a_gate_it_closes_at_once(opened: ConductedAuction) -> None:
    (opened.folder / "gate/open").unlink()
    (opened.folder / "gate").rename(opened.folder / "elsewhere")
    context = opened.conductor.context
    by = Hand(context.auction, opened.clock, opened.lines.append)
    assert by.close(1, WORD).outcome is Outcome.CLOSED
    assert opened.clock.wall() == BEGIN


def test_a_conductor_does_nothing_meanwhile(over: ConductedAuction) -> None:
    by, seen = hand_of(over), list[bool]()

    def look() -> None:
        with open(over.folder / "state/plan.lock", "rb") as lock:
            with contextlib.suppress(BlockingIOError):
                fcntl.flock(lock, fcntl.LOCK_EX | fcntl.LOCK_NB)
                seen.append(True)

    at_closing(by, look)
    with by.alone():
        by.close(1, WORD)
    assert not seen


# ---- When


@pytest.mark.parametrize("after", [-10, 0, 29])
def test_before_the_announced_end_nothing_is_shut_or_closed(conduct: Conduct, after: float) -> None:
    auction = conduct(WINDOW)
    auction.play(State.OPEN)
    auction.bid()
    auction.clock.now = BEGIN + 60 + after
    before = set(names_in_gate(auction))
    with pytest.raises(NotClosed, match="announced to be open until 12:01:30 UTC"):
        hand_of(auction).check_time(1, WORD)
    assert set(names_in_gate(auction)) == before


def test_at_the_announced_end_it_may_be_closed(over: ConductedAuction) -> None:
    over.clock.now = BEGIN + 90.0
    hand_of(over).check_time(1, WORD)


def test_a_person_may_say_that_it_is_early(conduct: Conduct) -> None:
    auction = conduct(WINDOW)
    auction.play(State.OPEN)
    hand_of(auction).check_time(1, Word([10], Ties.OF_CHAIN, frozenset(), is_early=True))


# ---- Sheets and journal


def test_without_a_sheet_nothing_is_closed(conduct: Conduct) -> None:
    auction = conduct([])
    with pytest.raises(NotClosed, match="nobody has a sheet in force.*--without-sheets"):
        hand_of(auction).close(1, WORD)
    assert auction.current_round() == 1


def test_without_a_sheet_a_person_may_close(conduct: Conduct) -> None:
    auction = conduct([])
    hand_of(auction).close(1, Word([10], Ties.OF_CHAIN, frozenset({Reason.NO_SHEETS})))
    assert auction.audit()[-1].startswith("journal")


def killed_before_sending(auction: ConductedAuction) -> None:
    """Kills a closing by hand when it sends the closing, which is on the disk."""
    by = hand_of(auction)

    def kill() -> None:
        raise Killed

    at_closing(by, kill)
    with pytest.raises(Killed):
        by.close(1, WORD)


def test_a_closing_that_was_made_for_another_journal_is_not_sent(
    opened: ConductedAuction,
) -> None:
    killed_before_sending(opened)
    assert opened.put("X", 1, 1, 100)
    with pytest.raises(NotClosed, match="the journal has changed.*--changed"):
        hand_of(opened).close(1, WORD)
    assert opened.current_round() == 1


def test_a_person_may_send_a_closing_that_was_made_for_another_journal(
    opened: ConductedAuction,
) -> None:
    killed_before_sending(opened)
    assert opened.put("X", 1, 1, 100)
    word = Word([10], Ties.OF_CHAIN, frozenset({Reason.CHANGED}))
    assert hand_of(opened).close(1, word).outcome is Outcome.CLOSED


# ---- Kills


def test_killed_before_each_step_the_next_call_closes_once(conduct: Conduct) -> None:
    step, was_killed = 0, True
    while was_killed:
        step += 1
        auction = conduct([], publish=30, rounds=1)
        (auction.folder / "gate/open").touch()
        auction.put("X", 1, 1, 100)
        disk = Disk(step, counts_reads=True)
        with contextlib.suppress(Killed), disk.in_use():
            hand_of(auction).close(1, WORD)
        was_killed = disk.has_killed
        if auction.current_round() == 1 and was_killed:
            assert hand_of(auction).close(1, WORD).outcome is Outcome.CLOSED
        assert sum(line.startswith("closed ") for line in auction.audit()) == 1
        auction.stop()
    assert step > 10


def test_killed_before_each_step_the_conductor_continues(conduct: Conduct) -> None:
    step, was_killed = 0, True
    while was_killed:
        step += 1
        auction = conduct(WINDOW, publish=30, rounds=1)
        auction.play(State.OPEN)
        auction.bid()
        auction.clock.sleep(40)
        disk = Disk(step)
        with contextlib.suppress(Killed), disk.in_use():
            by = hand_of(auction)
            with by.alone():
                by.close(1, WORD)
        was_killed = disk.has_killed
        auction.conductor = auction.fresh()
        auction.play()
        check(auction)
        auction.stop()
    assert step > 10


# ---- Notices


def test_a_round_that_is_closed_by_hand_is_frozen_before(over: ConductedAuction) -> None:
    by = hand_of(over)
    with by.alone():
        by.note(1)
        by.close(1, WORD)
    over.conductor = over.fresh()
    over.play()
    assert [(says["what"], says["round"]) for says in of_kind(over, "act")] == [("close", 1)]
    assert len(of_kind(over, "frozen")) == 1
    assert not faults_of(over)


def test_without_a_conductor_there_are_no_notices(opened: ConductedAuction) -> None:
    (opened.folder / "public/notices.jsonl").unlink(missing_ok=True)
    by = hand_of(opened)
    by.note(1)
    by.close(1, WORD)
    assert not (opened.folder / "public/notices.jsonl").exists()


def test_the_settings_of_the_folder_count(opened: ConductedAuction) -> None:
    path = opened.folder / "conductor.json"
    path.write_text(json.dumps({**json.loads(path.read_text()), "drain": 30, "publish": 50}))
    assert hand_of(opened).limits == settings.Settings.read(opened.folder).limits()
