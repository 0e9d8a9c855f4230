"""`auction clear` puts an auction's files away whole, and the folder begins another auction."""
import contextlib
import fcntl
import json
import pathlib
import shutil
import subprocess
import sys

import pytest

from auction.conductor import commitment
from auction.conductor.clear import ClearFault, clear
from auction.conductor.report import State
from auction.conductor.settings import SettingsFault
from auction.desk.desk import lock_of
from auction.formats.setup import Setup
from tests.conductor.conftest import Conduct
from tests.conductor.finished import finish
from tests.lib.conducted import ConductedAuction
from tests.lib.disk import Disk, Killed
from tests.lib.paths import AUCTION
from tests.lib.paths import auction as auction_command
from tests.lib.waiting import wait_for

OWN = {"gate", "kept", "operator", "public", "state", "auction.journal", "setup.json"}


@pytest.fixture
def ended(conduct: Conduct) -> ConductedAuction:
    """An auction that has ended, and whose server has stopped."""
    auction = conduct()
    finish(auction)
    auction.kill_server()
    (auction.folder / "tmp/cache/a").mkdir(parents=True)
    (auction.folder / "tmp/cache/a/page").write_text("round 3")
    return auction


def names(folder: pathlib.Path) -> set[str]:
    return {file.name for file in folder.iterdir()}


def test_all_files_of_the_auction_are_put_away(ended: ConductedAuction) -> None:
    past, left = clear(ended.folder, ended.clock.wall())
    assert names(past) == OWN
    assert not left
    assert names(ended.folder) == {"conductor.json", "operator.token", "past", "tmp"}
    assert past.parent.stat().st_mode & 0o777 == 0o700


def test_letters_with_tokens_are_put_away(ended: ConductedAuction) -> None:
    (ended.folder / "letters").mkdir(0o700)
    (ended.folder / "letters/X.txt").write_text("Token: XXXXXXXXXXXXXXXX")
    past, _ = clear(ended.folder, ended.clock.wall())
    assert not (ended.folder / "letters").exists()
    assert (past / "letters/X.txt").exists()


def test_cached_pages_are_removed(ended: ConductedAuction) -> None:
    clear(ended.folder, ended.clock.wall())
    assert not list((ended.folder / "tmp/cache").iterdir())


def test_a_journal_elsewhere_is_named(ended: ConductedAuction, tmp_path: pathlib.Path) -> None:
    journal = tmp_path / "auction.journal"
    shutil.move(ended.folder / "auction.journal", journal)
    settings = ended.folder / "conductor.json"
    settings.write_text(settings.read_text().replace('"auction.journal"', f'"{journal}"'))
    _, left = clear(ended.folder, ended.clock.wall())
    assert left == [str(journal)]


def test_nothing_is_put_away_while_a_server_runs(ended: ConductedAuction) -> None:
    ended.begin_server()
    before = names(ended.folder)
    with pytest.raises(ClearFault, match="a server runs"):
        clear(ended.folder, ended.clock.wall())
    assert names(ended.folder) == before


LOCKS = {"run": "a conductor", "desk": "the desk", "sending": "`auction standby`"}


@pytest.mark.parametrize(("name", "who"), LOCKS.items(), ids=list(LOCKS))
def test_nothing_is_put_away_while_a_process_of_the_auction_runs(
    ended: ConductedAuction, name: str, who: str
) -> None:
    """A desk would serve the next auction's folder by the set-up of this one."""
    before = names(ended.folder)
    with open(ended.folder / f"state/{name}.lock", "w", encoding="utf-8") as lock:
        fcntl.flock(lock, fcntl.LOCK_EX)
        with pytest.raises(ClearFault, match=f"{who} runs"):
            clear(ended.folder, ended.clock.wall())
    assert names(ended.folder) == before


def test_the_desk_has_the_lock_that_is_looked_at(ended: ConductedAuction) -> None:
    assert lock_of(ended.folder) == ended.folder / "state/desk.lock"


def test_a_folder_without_an_auction_is_refused(ended: ConductedAuction) -> None:
    clear(ended.folder, ended.clock.wall())
    with pytest.raises(ClearFault, match="no files of an auction"):
        clear(ended.folder, ended.clock.wall())


def test_killed_before_each_step_the_next_call_continues(conduct: Conduct) -> None:
    step, was_killed = 0, True
    while was_killed:
        step += 1
        ended = conduct()
        ended.kill_server()
        disk = Disk(step, counts_reads=True)
        with contextlib.suppress(Killed), disk.in_use():
            clear(ended.folder, ended.clock.wall())
        was_killed = disk.has_killed
        with contextlib.suppress(ClearFault):  # after its last step all is put away
            clear(ended.folder, ended.clock.wall())
        (past,) = (ended.folder / "past").iterdir()
        assert names(past) == OWN
    assert step > 20


def test_the_next_auction_does_not_end_by_the_last_ones_plan(ended: ConductedAuction) -> None:
    """The windows of the last auction are over, and a sheet is in force."""
    clear(ended.folder, ended.clock.wall())
    ended.begin_again()
    assert ended.put("X", 1, 2, 100)
    for _ in range(3):
        assert ended.look() is State.UNPLANNED
    assert ended.current_round() == 1


def test_the_command_says_where_the_files_are(ended: ConductedAuction) -> None:
    ran = auction_command("clear", ended.folder)
    assert ran.returncode == 0, ran.stderr
    assert "The auction's files are in" in ran.stdout


def test_the_command_refuses_while_a_server_runs(ended: ConductedAuction) -> None:
    ended.begin_server()
    ran = auction_command("clear", ended.folder)
    assert ran.returncode == 1
    assert "auction clear: a server runs" in ran.stderr


# ---- Half put away


@pytest.fixture
def half(ended: ConductedAuction) -> ConductedAuction:
    """An auction whose `clear` was killed when it had moved a few files."""
    disk = Disk(7)
    with contextlib.suppress(Killed), disk.in_use():
        clear(ended.folder, ended.clock.wall())
    assert disk.has_killed
    assert names(ended.folder / "past/new")
    return ended


def test_no_conductor_begins_in_a_folder_that_is_half_put_away(half: ConductedAuction) -> None:
    before = names(half.folder)
    with pytest.raises(SettingsFault, match="call it again"):
        half.fresh()
    assert names(half.folder) == before


def test_nobody_commits_in_a_folder_that_is_half_put_away(half: ConductedAuction) -> None:
    places = commitment.Places(half.folder / "kept", half.folder / "public")
    (half.folder / "setup.json").write_text(half.document)
    with pytest.raises(commitment.CommitmentFault, match="call it again"):
        commitment.make(places, Setup.read(half.folder / "setup.json"))


def test_nothing_is_put_away_while_receipts_are_signed(ended: ConductedAuction) -> None:
    folder = ended.folder / "receipts"
    folder.mkdir()
    words = [ended.folder / "setup.json", ended.folder / "auction.journal", ended.folder / "kept"]
    command = [sys.executable, AUCTION, "receipts", *words, folder]
    with subprocess.Popen(command, stdout=subprocess.DEVNULL) as service:
        try:
            wait_for("a receipt", lambda: list(folder.glob("X/*.json")), 60)
            with pytest.raises(ClearFault, match="`auction receipts` runs"):
                clear(ended.folder, ended.clock.wall())
        finally:
            service.kill()
    past, _ = clear(ended.folder, ended.clock.wall())
    assert list((past / "receipts").glob("X/*.json"))


def test_certificates_that_only_the_conductor_trusts_are_named(ended: ConductedAuction) -> None:
    """A trial's would be trusted in the next auction, whose bidders do not trust it."""
    settings = ended.folder / "conductor.json"
    settings.write_text(json.dumps({**json.loads(settings.read_text()), "authority": "cert.pem"}))
    _, left = clear(ended.folder, ended.clock.wall())
    assert left == [str(ended.folder / "cert.pem")]
