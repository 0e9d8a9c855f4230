"""A machine that is fenced serves nobody any more: no conductor and no command opens its gate."""
import os
import pathlib
import subprocess
import sys
import threading
from collections.abc import Iterator

import pytest

from auction.commands import standby
from auction.conductor import commands, disk
from auction.conductor.clear import ClearFault, clear
from auction.conductor.report import State
from auction.standby import fencing, mark
from auction.standby.fencing import Unfenced, forbid, stopped
from auction.standby.mark import FENCED, STANDBY, Mark, Marked
from tests.lib.conducted import ConductedAuction, conducted
from tests.lib.paths import AUCTION, auction
from tests.lib.server import Server
from tests.standby.folders import First, configuration


@pytest.fixture
def open_auction(program: pathlib.Path) -> Iterator[ConductedAuction]:
    """An auction in the window of round 1, with a gate that is open until its end."""
    with conducted(program) as one:
        one.play(State.OPEN)
        one.bid()
        assert one.is_open()
        (one.folder / "nginx.conf").write_text(configuration())
        yield one


def is_shut(one: ConductedAuction) -> bool:
    return os.listdir(one.folder / "gate") == []


def test_a_conductor_opens_no_gate_after_the_fence(open_auction: ConductedAuction) -> None:
    forbid(open_auction.folder, "taker")
    open_auction.look()
    open_auction.clock.sleep(10)
    open_auction.look()
    assert is_shut(open_auction) and open_auction.state is State.GONE
    assert "this machine is fenced" in open_auction.words


def test_a_conductor_that_is_started_again_opens_no_gate(open_auction: ConductedAuction) -> None:
    forbid(open_auction.folder, "taker")
    open_auction.conductor = open_auction.fresh()
    open_auction.look()
    assert is_shut(open_auction)


def test_a_round_is_not_closed_after_the_fence(open_auction: ConductedAuction) -> None:
    forbid(open_auction.folder, "taker")
    open_auction.wait(600)
    assert open_auction.current_round() == 1
    assert not (open_auction.folder / "kept/closing-1.json").exists()


def test_the_fence_waits_for_a_command_that_has_the_plan(open_auction: ConductedAuction) -> None:
    """The command opens the gate with its last step, and then the fence shuts it."""
    has_plan, may_end = threading.Event(), threading.Event()

    def extend() -> None:
        with disk.locked(open_auction.folder / "state/plan.lock"):
            has_plan.set()
            may_end.wait(60)
            disk.touch(open_auction.folder / "gate/999999")

    command = threading.Thread(target=extend)
    command.start()
    fence = threading.Thread(target=forbid, args=(open_auction.folder, "taker"))
    assert has_plan.wait(60)
    fence.start()
    assert Mark.read(open_auction.folder) is None
    may_end.set()
    for thread in (command, fence):
        thread.join(60)
    assert Mark.read(open_auction.folder) == Mark(FENCED, "taker") and is_shut(open_auction)


def test_a_fence_that_never_gets_the_plan_says_so(
    open_auction: ConductedAuction, monkeypatch: pytest.MonkeyPatch
) -> None:
    monkeypatch.setattr(fencing, "PATIENCE", 0)
    with disk.locked(open_auction.folder / "state/plan.lock"), pytest.raises(Unfenced):
        forbid(open_auction.folder, "taker")
    assert Mark.read(open_auction.folder) is None


@pytest.mark.parametrize(
    "command",
    [
        pytest.param(lambda context: commands.extend(context, 5), id="extend"),
        pytest.param(lambda context: commands.resume(context, 1), id="resume"),
        pytest.param(lambda context: commands.announce(context, "words"), id="announce"),
        pytest.param(lambda context: commands.pause(context, "words"), id="pause"),
    ],
)
@pytest.mark.parametrize("role", [STANDBY, FENCED])
def test_no_command_changes_anything(
    open_auction: ConductedAuction, role: str, command: object
) -> None:
    Mark(role).store(open_auction.folder)
    before = (open_auction.folder / "state/plan.json").read_bytes()
    with pytest.raises(Marked):
        command(open_auction.context())  # type: ignore[operator]
    assert (open_auction.folder / "state/plan.json").read_bytes() == before


def test_a_file_that_is_no_mark_forbids_too(open_auction: ConductedAuction) -> None:
    (open_auction.folder / mark.NAME).write_text("")
    open_auction.look()
    assert open_auction.state is State.GONE


def test_a_server_is_ended_and_cannot_start(open_auction: ConductedAuction) -> None:
    forbid(open_auction.folder, "taker")
    files = (open_auction.folder / "setup.json", open_auction.folder / "auction.journal")
    with stopped(open_auction.folder) as end:
        assert end.length == files[1].stat().st_size
        status, said = Server(open_auction.program, *files).ended()
        assert status and said
    assert open_auction.server.child.wait(60) is not None


def test_a_fence_is_for_one_take_over_only(open_auction: ConductedAuction) -> None:
    forbid(open_auction.folder, "first")
    forbid(open_auction.folder, "first")  # such as after a reply that was lost
    with pytest.raises(Unfenced):
        forbid(open_auction.folder, "second")
    assert Mark.read(open_auction.folder) == Mark(FENCED, "first")


def test_a_fence_by_hand_is_for_the_take_over_that_follows(open_auction: ConductedAuction) -> None:
    forbid(open_auction.folder, "")
    forbid(open_auction.folder, "taker")
    assert Mark.read(open_auction.folder) == Mark(FENCED, "taker")


def test_a_standby_is_not_fenced(open_auction: ConductedAuction) -> None:
    Mark(STANDBY).store(open_auction.folder)
    with pytest.raises(Unfenced, match="this machine is a standby"):
        forbid(open_auction.folder, "taker")


def test_the_command_says_where_the_journal_ends(open_auction: ConductedAuction) -> None:
    done = auction("fence", open_auction.folder)
    journal = open_auction.folder / "auction.journal"
    assert done.returncode == 0, done.stderr
    assert f"fenced: the journal ends at byte {journal.stat().st_size}, " in done.stdout


@pytest.mark.early
def test_somebody_who_listens_at_a_port_keeps_it_from_being_fenced(
    tmp_path: pathlib.Path, monkeypatch: pytest.MonkeyPatch
) -> None:
    first = First(tmp_path / "a")
    monkeypatch.setattr(fencing, "PATIENCE", 0)
    monkeypatch.setattr(fencing, "listens", lambda port: port == 1)
    with pytest.raises(Unfenced, match="still listens at port 1"), stopped(first.folder):
        pass


@pytest.mark.early
def test_standby_by_its_command_says_how_far_the_other_machine_is(tmp_path: pathlib.Path) -> None:
    """The other machine is another folder, in which the same path leads to a copy."""
    first = First(tmp_path / "a")
    shell = tmp_path / "shell"
    command = f"{sys.executable} {AUCTION} standby {tmp_path}/b --receive"
    shell.write_text(f"#!/bin/sh\nexec {command}\n")
    shell.chmod(0o755)
    done = auction("standby", first.folder, "b", "--once", "--shell", shell)
    assert done.returncode == 0, done.stderr
    assert done.stdout.startswith("b has all up to 20") and "round 1, 56 bytes" in done.stdout
    assert (first.folder / "state/standby.json").exists()
    assert (tmp_path / "b/kept/receipts.pem").exists()


@pytest.mark.early
def test_nobody_puts_an_auction_away_of_which_a_copy_is_sent(tmp_path: pathlib.Path) -> None:
    """Its copy would lose all files. Two machines may get copies at once."""
    first = First(tmp_path / "a")
    with standby.sending(first.folder), standby.sending(first.folder):
        with pytest.raises(ClearFault, match="`auction standby` runs"):
            clear(first.folder, 0)
    clear(first.folder, 0)


@pytest.mark.early
def test_standby_says_why_the_other_machine_takes_nothing(tmp_path: pathlib.Path) -> None:
    first, other = First(tmp_path / "a"), First(tmp_path / "b")
    shell = tmp_path / "shell"
    command = f"{sys.executable} {AUCTION} standby {other.folder} --receive"
    shell.write_text(f"#!/bin/sh\nexec {command}\n")
    shell.chmod(0o755)
    done = auction("standby", first.folder, "b", "--once", "--shell", shell)
    assert done.returncode == 1 and "is no standby's" in done.stderr


@pytest.mark.early
def test_standby_ends_on_a_machine_that_is_fenced(tmp_path: pathlib.Path) -> None:
    first = First(tmp_path / "a")
    Mark(FENCED, "taker").store(first.folder)
    done = auction("standby", first.folder, "b", "--shell", "true")
    assert done.returncode == 1 and "this machine is fenced" in done.stderr


@pytest.mark.early
def test_take_over_asks_a_person_once_more(tmp_path: pathlib.Path) -> None:
    First(tmp_path / "a")
    words = [sys.executable, str(AUCTION), "take-over", str(tmp_path / "a"), "--is-off"]
    done = subprocess.run(words, input="yes\n", capture_output=True, text=True, timeout=60)
    assert done.returncode == 1 and "not taken over" in done.stderr
    assert "Two machines that serve one auction ruin it" in done.stdout


@pytest.mark.early
@pytest.mark.parametrize("words", [[], ["--is-off", "--cut-off", "true"]])
def test_take_over_needs_one_fence(tmp_path: pathlib.Path, words: list[str]) -> None:
    done = auction("take-over", tmp_path, *words)
    assert done.returncode == 1 and "give one of --first" in done.stderr


@pytest.mark.early
def test_no_round_is_closed_by_hand(tmp_path: pathlib.Path) -> None:
    first = First(tmp_path / "a")
    Mark(FENCED, "taker").store(first.folder)
    files = [first.folder / name for name in ("operator.token", "setup.json", "auction.journal")]
    done = auction("close", "http://127.0.0.1:9", *files, first.folder / "kept", "10")
    assert done.returncode == 1 and "this machine is fenced" in done.stderr
