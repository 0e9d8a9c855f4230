"""A copy is whole or not there, however its making ends, and only a sound one takes over."""
import contextlib
import json
import os
import pathlib
import shutil
import socket
import tempfile
import time
from collections.abc import Callable, Iterator
from typing import Any
from unittest.mock import patch

import pytest

from auction.conductor import disk
from auction.conductor.chain import Chain
from auction.formats.setup import Setup
from auction.standby import keeping, mark
from auction.standby.facts import Manifest, copy_of
from auction.standby.frames import Line, Silence
from auction.standby.judge import Reason
from auction.standby.keeping import finish, keep
from auction.standby.sending import Refused, Sender
from auction.standby.taking import Means, NotTaken, take_over
from tests.lib.conducted import MEMORY
from tests.lib.disk import Disk, Killed
from tests.standby.folders import First, copy, files_of, line_to, sheet

pytestmark = pytest.mark.early
OFF = Means(is_off=True)


@pytest.fixture
def tmp_path() -> Iterator[pathlib.Path]:
    """A folder where a sync costs nothing, if there is one."""
    memory = MEMORY if os.path.isdir(MEMORY) else None
    with tempfile.TemporaryDirectory(prefix="standby-", dir=memory) as name:
        yield pathlib.Path(name)


@pytest.fixture
def first(tmp_path: pathlib.Path) -> First:
    """A machine that serves, in round 2."""
    made = First(tmp_path / "a")
    for name in "XY":
        made.bid(name, 1, 1)
    made.close(1)
    made.bid("X", 2, 1)
    return made


@pytest.fixture
def second(first: First, tmp_path: pathlib.Path) -> pathlib.Path:
    """Its standby, with a whole copy."""
    copy(first.folder, tmp_path / "b")
    return tmp_path / "b"


# ---- Copies


def test_a_copy_has_all_files_and_the_journal(first: First, second: pathlib.Path) -> None:
    assert files_of(second) == first.files()


def test_a_copy_has_the_modes(first: First, second: pathlib.Path) -> None:
    for name in ("kept", "kept/receipts.pem", "setup.json", "public/commitment.json", "."):
        modes = [(folder / name).stat().st_mode for folder in (first.folder, second)]
        assert modes[0] == modes[1], name


def test_a_copy_serves_nobody(second: pathlib.Path) -> None:
    with pytest.raises(mark.Marked, match="this machine is a standby"):
        mark.check(second)


def test_a_second_pass_has_what_is_new_and_no_more_what_is_gone(
    first: First, second: pathlib.Path
) -> None:
    first.bid("Y", 2, 1)
    (first.folder / "web/index.html").unlink()
    first.close(2)
    copy(first.folder, second)
    assert files_of(second) == first.files()


def play_on(first: First) -> None:
    first.bid("Y", 2, 1)
    first.close(2)
    (first.folder / "web/index.html").unlink()
    (first.folder / "kept/closing-3.json").write_text("{}")


def kept_with_a_kill(second: pathlib.Path, line: Line, step: int) -> None:
    """Stores a pass, and is killed before one of its calls of the disk."""
    used = Disk(step)
    with patch.object(disk, "os", used), patch.object(keeping, "os", used):
        try:
            keep(second, line, time.time)
        except Killed:
            os._exit(9)
    os._exit(0)


def sends_with_a_kill(first: First, second: pathlib.Path, step: int) -> bool:
    """Sends a pass to a process that is killed. Returns whether it was."""
    with line_to(lambda line: kept_with_a_kill(second, line, step)) as (line, child):
        with contextlib.suppress(Silence, BrokenPipeError):
            sender = Sender(first.folder, line, time.time)
            sender.greet()
            sender.one_pass()
            line.send("end")
    return child.exitcode == 9


@pytest.mark.parametrize("is_fresh", [True, False], ids=["the first pass", "a later one"])
def test_a_kill_at_any_step_leaves_a_sound_copy_or_none(
    first: First, tmp_path: pathlib.Path, is_fresh: bool
) -> None:
    base, second, steps = tmp_path / "base", tmp_path / "b", 0
    if not is_fresh:
        copy(first.folder, base)
        play_on(first)
    wanted = first.files()
    while True:
        shutil.rmtree(second, ignore_errors=True)
        if not is_fresh:
            shutil.copytree(base, second)
        steps += 1
        if not sends_with_a_kill(first, second, steps):
            break
        names = set(os.listdir(second)) if second.exists() else set()
        assert mark.NAME in names or names <= {f"{mark.NAME}.new"}, steps
        finish(second)
        found = copy_of(second)
        assert found.is_standby or not found.is_whole, steps
        assert found.is_whole != is_fresh or is_sound(second), steps
        copy(first.folder, second)
        assert files_of(second) == wanted, steps
    assert steps > 20


def is_sound(second: pathlib.Path) -> bool:
    """Whether a copy that is there can take over."""
    found = copy_of(second)
    shown = dict(enumerate(found.rounds, 1))
    has_all = all(shown.get(number) == digest for number, digest in found.published)
    return all(found[:4]) and has_all and not found.sheets_without_record


# ---- What is refused


@pytest.mark.parametrize("name", ["../x", "/etc/x", "fence.json", "a/../../x", "gate/open"])
def test_a_name_that_leads_elsewhere_is_refused(second: pathlib.Path, name: str) -> None:
    manifest = Manifest.read(second)
    assert manifest
    with line_to(lambda line: keep(second, line, time.time)) as (line, _):
        line.send("hello", host="h", auction=manifest.auction, journal="auction.journal")
        assert line.receive().kind == "have"
        line.send("file", b"x", name=name, mode=0o600, group="root")
        answer = line.receive()
    assert answer.kind == "refused" and "no file of a copy" in answer.says["words"]


def refused_copy(first: pathlib.Path, second: pathlib.Path) -> str:
    with pytest.raises(Refused) as fault:
        copy(first, second)
    return str(fault.value)


def test_a_folder_that_serves_takes_no_copy(first: First, tmp_path: pathlib.Path) -> None:
    other = First(tmp_path / "other")
    assert "is no standby's" in refused_copy(first.folder, other.folder)


def test_a_machine_that_has_taken_over_takes_no_copy(first: First, second: pathlib.Path) -> None:
    take_over(second, OFF)
    assert "is no standby's" in refused_copy(first.folder, second)


def test_a_copy_of_another_auction_is_refused(
    first: First, second: pathlib.Path, tmp_path: pathlib.Path
) -> None:
    other = First(tmp_path / "other")
    (other.folder / "public/commitment.json").write_text("{}")
    assert "a copy of another auction" in refused_copy(other.folder, second)


def test_a_standby_that_has_more_of_the_journal_takes_no_copy(
    first: First, second: pathlib.Path, tmp_path: pathlib.Path
) -> None:
    """Such as that of a first machine which has lost the end of its journal."""
    earlier = First(tmp_path / "earlier")
    earlier.bid("X", 1, 1)
    assert "more of it than this machine" in refused_copy(earlier.folder, second)


# ---- Taking over


def reasons(second: pathlib.Path, means: Means = OFF, clock: Any = time.time) -> str:
    """Why a machine does not take over."""
    before = files_of(second)
    with pytest.raises(NotTaken) as fault:
        take_over(second, means, clock)
    assert files_of(second) == before and (second / mark.NAME).exists()
    return str(fault.value)


def test_a_sound_copy_takes_over_once(second: pathlib.Path) -> None:
    assert take_over(second, OFF) == "a person says that it is off"
    mark.check(second)
    assert all((second / name).is_dir() for name in ("gate", "inner", "operator", "log"))
    with pytest.raises(NotTaken, match="this machine is no standby"):
        take_over(second, OFF)


def test_a_receipt_of_a_refused_sheet_is_none_of_the_journals(
    first: First, tmp_path: pathlib.Path
) -> None:
    first.show("X", "refused.json", "{}")
    copy(first.folder, tmp_path / "c")
    take_over(tmp_path / "c", OFF)


def test_a_take_over_changes_no_file_of_the_auction(first: First, second: pathlib.Path) -> None:
    take_over(second, OFF)
    assert files_of(second) == first.files()


def change(name: str, content: str) -> Callable[[pathlib.Path], None]:
    def changed(second: pathlib.Path) -> None:
        (second / name).write_text(content)

    return changed


def without_the_last_round(second: pathlib.Path) -> None:
    """The journal of before the closing, with the published files of after it."""
    journal = (second / "auction.journal").read_bytes()
    place = journal.index(b"POST /v1/close") - 40
    (second / "auction.journal").write_bytes(journal[:place])


def of_another_chain(second: pathlib.Path) -> None:
    setup = Setup.read(second / "setup.json")
    Chain.drawn(setup).store(second / "kept/chain.json")


def with_a_receipt_more(second: pathlib.Path) -> None:
    (second / "receipts/.a/X/2-2.json").write_text("{}")


SPOILED: dict[str, tuple[Callable[[pathlib.Path], None], Reason]] = {
    "a file that was changed": (change("conductor.json", "{}"), Reason.CHANGED),
    "a file that is lost": (lambda b: (b / "kept/receipts.pem").unlink(), Reason.CHANGED),
    "a file more": (change("kept/closing-9.json", "{}"), Reason.CHANGED),
    "another chain": (of_another_chain, Reason.STRANGER),
    "another plan": (
        change("state/plan.json", json.dumps({"auction": "another"})),
        Reason.STRANGER,
    ),
    "a journal behind the published rounds": (without_the_last_round, Reason.BEHIND),
    "a receipt of a sheet that is lost": (with_a_receipt_more, Reason.RECEIPTS),
    "no whole pass": (lambda b: (b / "standby.json").unlink(), Reason.INCOMPLETE),
}


@pytest.mark.parametrize(("spoil", "reason"), SPOILED.values(), ids=SPOILED)
def test_a_spoiled_copy_does_not_take_over(
    second: pathlib.Path, spoil: Callable[[pathlib.Path], None], reason: Reason
) -> None:
    spoil(second)
    assert reason.value in reasons(second)


def test_a_round_that_others_have_saved_must_be_in_the_journal(
    first: First, second: pathlib.Path, tmp_path: pathlib.Path
) -> None:
    first.bid("Y", 2, 1)
    first.close(2)  # the copy is of before
    means = Means(is_off=True, saved=first.folder / "public")
    assert Reason.BEHIND.value in reasons(second, means)


def test_a_digest_that_others_have_saved_must_be_the_journals(
    second: pathlib.Path, tmp_path: pathlib.Path
) -> None:
    (tmp_path / "saved/rounds").mkdir(parents=True)
    page = {"round": 1, "digest": "0" * 64, "seed": None}
    (tmp_path / "saved/rounds/1.json").write_text(json.dumps(page))
    means = Means(is_off=True, saved=tmp_path / "saved")
    assert Reason.CONTRADICTED.value in reasons(second, means)


def test_a_copy_from_the_future_does_not_take_over(second: pathlib.Path) -> None:
    assert Reason.FUTURE.value in reasons(second, clock=lambda: time.time() - 3600)


def test_a_clock_that_differs_needs_a_persons_word(first: First, tmp_path: pathlib.Path) -> None:
    second = tmp_path / "c"
    copy(first.folder, second, lambda: time.time() + 5)
    assert Reason.CLOCKS.value in reasons(second)
    take_over(second, Means(is_off=True, clock_is_right=True))


def test_nobody_takes_over_without_a_fence(second: pathlib.Path) -> None:
    assert Reason.NOT_FENCED.value in reasons(second, Means())


def test_a_command_that_fails_is_no_fence(second: pathlib.Path) -> None:
    assert "false ended with status 1" in reasons(second, Means(cut_off="false"))
    assert take_over(second, Means(cut_off="true")) == "a command has cut it off"


def test_a_machine_that_answers_is_not_off(second: pathlib.Path) -> None:
    with socket.create_server(("127.0.0.1", 0)) as first:
        address = f"127.0.0.1:{first.getsockname()[1]}"
        assert Reason.ANSWERS.value in reasons(second, Means(is_off=True, addresses=(address,)))
    take_over(second, Means(is_off=True, addresses=(address,)))


def test_a_process_that_stores_a_copy_is_ended(first: First, second: pathlib.Path) -> None:
    """A machine that is lost says nothing, and its connection stays."""
    with line_to(lambda line: keep(second, line, time.time)) as (line, child):
        sender = Sender(first.folder, line, time.time)
        sender.greet()
        sender.one_pass()
        take_over(second, OFF)
        child.join(30)
        assert child.exitcode


def test_the_unfinished_pass_of_a_lost_machine_is_dropped(
    first: First, second: pathlib.Path
) -> None:
    before = files_of(second)
    with line_to(lambda line: keep(second, line, time.time)) as (line, _):
        sender = Sender(first.folder, line, time.time)
        sender.greet()
        line.send("file", b"new", name="public/winners.json", mode=0o644, group="root")
    take_over(second, OFF)
    assert files_of(second) == before


def test_a_sheet_of_an_unfinished_pass_counts(first: First, second: pathlib.Path) -> None:
    """The journal comes first, so it may be longer than the last whole pass says."""
    first.texts.append(sheet("Y", 2, 1))
    first.write_journal()
    with line_to(lambda line: keep(second, line, time.time)) as (line, _):
        sender = Sender(first.folder, line, time.time)
        sender.greet()
        sender.journal.read_on()
        sender.send_journal()
    take_over(second, OFF)
    assert (second / "auction.journal").read_bytes().count(b"PUT /v1/me/bids") == 4
