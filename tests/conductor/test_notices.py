"""What the conductor and the commands write to the signed notices, each once."""
import dataclasses
import json
import pathlib
from collections.abc import Callable
from typing import Any

import pytest

from auction.conductor import commands, notices
from auction.conductor.clock import utc
from auction.conductor.increments import Rule
from auction.conductor.notices import Facts, due
from auction.conductor.observed import Limits
from auction.conductor.plan import Act, Plan
from auction.conductor.report import State
from auction.conductor.timetable import Window
from auction.formats.journal import Journal
from auction.formats.notices import Entry, read_notices
from tests.conductor.conftest import Conduct
from tests.conductor.plans import take
from tests.lib.clock import BEGIN
from tests.lib.conducted import ConductedAuction, conducted
from tests.lib.paths import auction as auction_command

ROUND = [(60, 90)]


def entries(auction: ConductedAuction) -> list[Entry]:
    """The notices, as anyone reads them."""
    public = auction.folder / "public"
    return read_notices(public / "notices.jsonl", (public / "commitment.json").read_bytes())


def of_kind(auction: ConductedAuction, kind: str) -> list[dict[str, Any]]:
    return [entry.says for entry in entries(auction) if entry.kind == kind]


def times_of(auction: ConductedAuction, kind: str) -> list[str]:
    return [entry.time for entry in entries(auction) if entry.kind == kind]


# ---- An auction


@pytest.fixture(scope="module")
def played(program: pathlib.Path) -> Any:
    with conducted(program, publish=30) as auction:
        auction.play(step=1)
        yield auction


def test_an_auction_has_each_notice_once(played: ConductedAuction) -> None:
    said = [json.dumps([entry.kind, entry.says], sort_keys=True) for entry in entries(played)]
    assert len(set(said)) == len(said)


def test_a_round_has_its_notices_in_order(played: ConductedAuction) -> None:
    kinds = [entry.kind for entry in entries(played) if entry.says.get("round") == 2]
    assert kinds == ["opened", "frozen", "closed", "published"]


def test_the_timetable_and_the_increments_are_noticed_first(played: ConductedAuction) -> None:
    windows = [
        {"closes": utc(BEGIN + closes), "opens": utc(BEGIN + opens), "round": number}
        for number, (opens, closes) in enumerate([(60, 360), (420, 720), (780, 1080)], 1)
    ]
    first, second, *_ = entries(played)
    assert (first.kind, first.says) == ("timetable", {"windows": windows})
    assert (second.kind, second.says) == ("increments", {"rules": [{"percent": 10}]})


def test_the_end_is_noticed(played: ConductedAuction) -> None:
    assert of_kind(played, "ended") == [{"round": 3}]


def test_each_announcement_is_noticed_as_it_is_published(played: ConductedAuction) -> None:
    made = [{"key": one["key"], "text": one["text"]} for one in played.announcements()]
    assert of_kind(played, "announcement") == made


def test_a_round_is_noticed_with_the_digest_and_the_increment_of_its_closing(
    played: ConductedAuction,
) -> None:
    digests = [line.split()[2] for line in played.audit() if line.startswith("closed ")]
    assert of_kind(played, "closed") == [
        {"digest": digest, "increment": 10, "round": number}
        for number, digest in enumerate(digests, 1)
    ]


def test_the_frozen_digest_is_that_of_the_entry_before_the_closing(
    played: ConductedAuction,
) -> None:
    frozen = [says["digest"] for says in of_kind(played, "frozen")]
    assert frozen == before_closings(played.conductor.context.journal)


def before_closings(read: Journal) -> list[str]:
    """The digest of the entry before each closing."""
    journal, found = Journal(read.path, read.setup), list[str]()
    digest = journal.digest.hex()
    with open(read.path, "rb") as file:
        journal.check_what_was_read(file)
        for entry, text in journal.added(file):
            if text.startswith(b"POST"):
                found.append(digest)
            digest = entry.digest
    return found


def test_sheets_are_frozen_at_a_fixed_second(played: ConductedAuction) -> None:
    after = 10 + Limits.freeze
    ends = [360, 720, 1080]
    assert times_of(played, "frozen") == [utc(BEGIN + end + after) for end in ends]


def test_nothing_of_a_closing_is_noticed_before_its_curtain_lifts(
    played: ConductedAuction,
) -> None:
    lifts = [utc(BEGIN + end + 30) for end in (360, 720, 1080)]
    assert times_of(played, "closed") == lifts
    assert times_of(played, "published") == lifts


def test_verify_finds_that_all_is_as_announced(played: ConductedAuction) -> None:
    assert not faults_of(played)


def faults_of(auction: ConductedAuction) -> list[str]:
    """What `auction verify` finds in what was published."""
    files = [auction.folder / name for name in ("setup.json", "auction.journal", "public")]
    lines = auction_command("verify", *files).stdout.splitlines()
    assert any(line.startswith("ok     rounds:") for line in lines) or lines[-1].startswith("NOT")
    return [line for line in lines if line.startswith("FAILED")]


# ---- When sheets are frozen


def test_a_round_that_is_held_is_frozen_at_the_same_second(conduct: Conduct) -> None:
    auction = conduct(ROUND)
    auction.play(State.HELD, bidders="")
    assert times_of(auction, "frozen") == [utc(BEGIN + 90 + 10 + Limits.freeze)]


def test_no_closing_is_made_for_another_journal_than_the_frozen_one(conduct: Conduct) -> None:
    """A sheet comes at the server's own port, once the window is over."""
    auction = conduct([(60, 90), (200, 230)], rounds=2)
    frozen_alone(auction)
    assert auction.put("X", 1, 1, 100)
    assert auction.look() is State.HELD
    assert "the journal has changed since its sheets were frozen" in auction.words
    assert not (auction.folder / "kept/closing-1.json").exists()


def frozen_alone(auction: ConductedAuction) -> None:
    """Plays until the sheets are frozen, and kills the conductor before it does more."""
    auction.play(State.DRAINING)
    auction.bid()
    auction.clock.sleep(10)
    auction.look()
    auction.clock.sleep(Limits.freeze)
    auction.disk.count, auction.disk.kill_in = 0, auction.folder / "kept"
    assert auction.look() is None
    auction.disk.kill_in = None
    auction.conductor = auction.fresh()
    assert len(of_kind(auction, "frozen")) == 1


def test_a_word_freezes_the_journal_as_it_is_and_closes_it(conduct: Conduct) -> None:
    auction = conduct([(60, 90), (200, 230)], rounds=2)
    frozen_alone(auction)
    assert auction.put("X", 1, 1, 100)
    auction.look()
    commands.close_next(auction.context(), 1, False)
    auction.play()
    digests = [says["digest"] for says in of_kind(auction, "frozen") if says["round"] == 1]
    assert len(set(digests)) == 2


def test_a_word_is_for_one_change_of_the_journal(conduct: Conduct) -> None:
    auction = conduct([(60, 90), (200, 230)], rounds=2)
    frozen_alone(auction)
    assert auction.put("X", 1, 1, 100)
    auction.look()
    commands.close_next(auction.context(), 1, False)
    auction.disk.kill_in = auction.folder / "kept"
    assert auction.look() is None
    auction.disk.kill_in = None
    assert auction.put("X", 1, 2, 100)
    auction.conductor = auction.fresh()
    assert auction.look() is State.HELD


def test_a_window_that_opens_again_is_frozen_again(conduct: Conduct) -> None:
    auction = conduct(ROUND, rounds=1)
    auction.play(State.HELD, bidders="")
    commands.extend(auction.context(), 1)
    auction.play()
    assert not faults_of(auction)
    assert [says["round"] for says in of_kind(auction, "frozen")] == [1, 1]
    assert [says["opens"] for says in of_kind(auction, "opened")] == [
        utc(BEGIN + 60),
        utc(BEGIN + 110),
    ]


def test_a_round_that_somebody_else_closes_is_not_frozen(conduct: Conduct) -> None:
    """So everyone sees that its sheets were not frozen before its closing."""
    auction = conduct(ROUND, rounds=1)
    auction.play(State.OPEN)
    auction.bid()
    auction.close_by_hand(1, 10)
    auction.play()
    assert not of_kind(auction, "frozen")
    assert any("no notice froze its sheets" in fault for fault in faults_of(auction))


# ---- What persons do


ACTS: list[tuple[str, Callable[..., None], tuple[Any, ...], int | None]] = [
    ("pause", commands.pause, ("A fire alarm.",), 1),
    ("extend", commands.extend, (1,), 1),
    ("announce", commands.announce, ("Extension 105.",), None),
]


@pytest.mark.parametrize(("what", "command", "words", "number"), ACTS, ids=[a[0] for a in ACTS])
def test_a_command_is_noticed_once_also_if_it_is_killed(
    conduct: Conduct,
    what: str,
    command: Callable[..., None],
    words: tuple[Any, ...],
    number: int | None,
) -> None:
    step, was_killed = 0, True
    while was_killed:
        step += 1
        auction = conduct(ROUND)
        auction.play(State.OPEN)
        before = auction.announcements()
        was_killed = auction.obey(command, *words, kill_at=step)
        auction.look()
        is_done = auction.announcements() != before
        found = [(says["what"], says.get("round")) for says in of_kind(auction, "act")]
        assert found == [(what, number)] * is_done
    assert step > 10


def test_the_same_act_is_noticed_each_time(conduct: Conduct) -> None:
    auction = conduct(ROUND)
    auction.play(State.OPEN)
    for _ in range(2):
        commands.pause(auction.context(), "A fire alarm.")
        commands.resume(auction.context(), 0)
    acts = [says["what"] for says in of_kind(auction, "act")]
    assert acts == ["pause", "resume", "pause", "resume"]


def test_a_timetable_is_noticed_with_its_rules_of_increments(conduct: Conduct) -> None:
    auction = conduct([])
    rules = [{"excess": 50, "percent": 10}, {"percent": 5}]
    assert take(auction, (60, 120), increments=rules) == ""
    assert of_kind(auction, "increments") == [{"rules": rules}]


def test_a_draw_is_noticed(conduct: Conduct) -> None:
    auction = conduct([])
    (auction.folder / "public/draw.json").write_text('{"commitment":"","draw":"5 17 33"}')
    auction.look()
    auction.look()
    assert of_kind(auction, "draw") == [{"words": "5 17 33"}]


def test_notices_that_are_no_chain_are_named_and_end_nothing(conduct: Conduct) -> None:
    auction = conduct(ROUND, rounds=1)
    auction.play(State.OPEN)
    path = auction.folder / "public/notices.jsonl"
    right = path.read_bytes()
    for text in (right[:-1], right[1:], right.replace(b"opened", b"closed"), b"[]\n"):
        path.write_bytes(text)
        assert auction.look() is State.GONE
        assert f"{path}: line " in auction.words
    path.write_bytes(right)
    auction.bid()
    auction.play()


# ---- What is due


WINDOWS = {1: Window(60, 90, 61.0), 2: Window(200, 230)}
NOTICED: list[tuple[str, dict[str, Any]]] = [
    *due(Facts(Plan("", WINDOWS), closed=[{"round": 1}], ended=1), []),
]


def entry_of(kind: str, says: dict[str, Any]) -> Entry:
    return Entry("", kind, 1, says, "")


@pytest.mark.early
@pytest.mark.parametrize("count", range(len(NOTICED) + 1))
def test_what_is_noticed_is_not_due_again(count: int) -> None:
    """Whatever was written before a kill."""
    facts = Facts(Plan("", WINDOWS), closed=[{"round": 1}], ended=1)
    made = [entry_of(*one) for one in NOTICED[:count]]
    assert due(facts, made) == NOTICED[count:]


@pytest.mark.early
def test_a_change_that_is_taken_back_is_due() -> None:
    made = [entry_of("increments", {"rules": [{"percent": percent}]}) for percent in (10, 20)]
    plan = Plan("", WINDOWS, [Rule(10)])
    assert ("increments", {"rules": [{"percent": 10}]}) in due(Facts(plan), made)


@pytest.mark.early
def test_acts_that_are_alike_are_due_as_often_as_they_were_done() -> None:
    act = Act("pause", "root", 1, 0)
    said = ("act", {"round": 1, "what": "pause", "who": "root"})
    facts = Facts(Plan("", acts=[act, act, dataclasses.replace(act, after=2)]))
    for count in (0, 2, 3):  # acts of one look are written together
        assert due(facts, [entry_of(*said)] * count) == [said] * (3 - count)


@pytest.mark.early
def test_a_window_of_no_length_is_not_noticed() -> None:
    plan = Plan("", {1: Window(60, 60, 61.0)})
    assert [kind for kind, _ in notices.happened(Facts(plan))] == []
