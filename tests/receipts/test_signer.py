"""The signing of receipts in one process: killed at each step, without a disk, and between its look
and the moment at which receipts appear.
"""
import contextlib
import pathlib
from collections.abc import Callable, Iterator

import pytest

from auction import receipts
from auction.formats.journal import JournalFault
from tests.lib.disk import killed_at
from tests.lib.waiting import wait_for
from tests.receipts.auction import ReceiptsAuction, publish

# System calls for two receipts: each is opened and renamed. Then come four links, for three bidders
# and for the folder that is seen: the rest of a killed call is removed, and each is renamed.
STEPS = 4 + 8
BOTH = {"X/1-1.json", "X/1-2.json"}


@pytest.fixture(scope="module")
def whole(
    program: pathlib.Path, tmp_path_factory: pytest.TempPathFactory
) -> Iterator[ReceiptsAuction]:
    """An auction with two sheets of X."""
    with ReceiptsAuction(program, tmp_path_factory.mktemp("whole")) as auction:
        auction.send("X", 1)
        auction.send("X", 2)
        yield auction


@pytest.fixture
def two(whole: ReceiptsAuction) -> ReceiptsAuction:
    """The auction with two sheets, none of which has a receipt."""
    whole.remove_receipts()
    return whole


@pytest.fixture(scope="module")
def wanted(whole: ReceiptsAuction) -> dict[str, bytes]:
    """The receipts of the two sheets, as the command makes them."""
    whole.remove_receipts()
    assert whole.sign_once() == (0, "receipts 2\n")
    return whole.files()


# ---- Kills


@pytest.mark.parametrize("step", range(1, STEPS + 1))
def test_a_killed_service_has_published_whole_receipts_only(
    wanted: dict[str, bytes], two: ReceiptsAuction, step: int
) -> None:
    with killed_at(step) as disk:
        publish(two.signer())
    assert disk.has_killed
    assert two.files().items() <= wanted.items()


@pytest.mark.parametrize("step", range(1, STEPS + 1))
def test_the_service_after_a_kill_makes_the_same_receipts(
    wanted: dict[str, bytes], two: ReceiptsAuction, step: int
) -> None:
    with killed_at(step):
        publish(two.signer())
    publish(two.signer())
    assert two.files() == wanted


def test_the_service_has_no_step_after_the_last(
    wanted: dict[str, bytes], two: ReceiptsAuction
) -> None:
    with killed_at(STEPS + 1) as disk:
        publish(two.signer())
    assert not disk.has_killed
    assert two.files() == wanted


# ---- What fails


def fail(_: pathlib.Path) -> None:
    raise OSError("no sync")


def test_nothing_is_signed_while_the_journal_is_not_on_the_disk(
    two: ReceiptsAuction, monkeypatch: pytest.MonkeyPatch
) -> None:
    monkeypatch.setattr(receipts, "sync", fail)
    with pytest.raises(OSError, match="no sync"):
        publish(two.signer())
    assert not two.files()


def test_the_next_call_after_a_failed_sync_makes_all_receipts(
    wanted: dict[str, bytes], two: ReceiptsAuction, monkeypatch: pytest.MonkeyPatch
) -> None:
    signer = two.signer()
    with monkeypatch.context() as patch, contextlib.suppress(OSError):
        patch.setattr(receipts, "sync", fail)
        publish(signer)
    assert publish(signer) == 2
    assert two.files() == wanted


def test_the_next_call_after_a_lost_folder_makes_all_receipts(
    wanted: dict[str, bytes], two: ReceiptsAuction
) -> None:
    signer = two.signer()
    elsewhere = two.receipts.rename(two.folder / "elsewhere")
    try:
        with pytest.raises(FileNotFoundError):
            publish(signer)
    finally:
        elsewhere.rename(two.receipts)
    assert publish(signer) == 2
    assert two.files() == wanted


def test_a_look_shows_nothing(two: ReceiptsAuction) -> None:
    two.signer().look()
    assert not two.files()


def test_all_receipts_of_a_look_appear_by_one_step(
    wanted: dict[str, bytes], two: ReceiptsAuction
) -> None:
    """Before each step of showing them, there are none or all."""
    seen = set[int]()
    for step in range(1, STEPS + 2):
        two.remove_receipts()
        with killed_at(step):
            publish(two.signer())
        seen.add(len(two.files()))
    assert seen == {0, len(wanted)}


def test_a_receipt_that_a_loss_of_power_emptied_is_made_again(
    wanted: dict[str, bytes], two: ReceiptsAuction
) -> None:
    publish(two.signer())
    (two.receipts / "X/1-2.json").write_bytes(b"")
    assert publish(two.signer()) == 1
    assert two.files() == wanted


def test_both_folders_get_the_receipts_of_all_looks(
    wanted: dict[str, bytes], whole: ReceiptsAuction, tmp_path: pathlib.Path
) -> None:
    """Sheets that come one by one, as in an auction. Each look shows the other folder."""
    whole.remove_receipts()
    journal, part = whole.journal_file.read_bytes(), tmp_path / "part.journal"
    signer, seen = whole.signer(part), []
    for length in (length_before_the_last_record(journal), len(journal)):
        part.write_bytes(journal[:length])
        publish(signer)
        seen.append(set(whole.files()))
    assert seen == [{"X/1-1.json"}, BOTH]
    assert whole.files() == wanted


# ---- Journals


def length_before_the_last_record(journal: bytes) -> int:
    return journal.rindex(b"PUT ") - 40


@pytest.mark.parametrize("more", [0, 7, 40, -1], ids=["none", "length", "head", "all-but-one-byte"])
def test_a_record_in_the_writing_waits(
    two: ReceiptsAuction, tmp_path: pathlib.Path, more: int
) -> None:
    journal = two.journal_file.read_bytes()
    part = tmp_path / "part.journal"
    last = length_before_the_last_record(journal)
    part.write_bytes(journal[: last + more] if more >= 0 else journal[:more])
    signer = two.signer(part)
    assert publish(signer) == 1
    assert set(two.files()) == {"X/1-1.json"}
    assert publish(signer) == 0
    part.write_bytes(journal)
    assert publish(signer) == 1
    assert set(two.files()) == BOTH


BAD: dict[str, Callable[[bytes], bytes]] = {
    "damaged": lambda journal: journal[:-1] + b"?" + bytes(99),
    "of-another-auction": lambda journal: journal[:30] + b"?" + journal[31:],
    "empty": lambda journal: b"",
}


@pytest.mark.parametrize("change", BAD.values(), ids=BAD)
def test_a_journal_that_is_not_this_auction_s_gives_no_receipt(
    two: ReceiptsAuction, tmp_path: pathlib.Path, change: Callable[[bytes], bytes]
) -> None:
    bad = tmp_path / "bad.journal"
    bad.write_bytes(change(two.journal_file.read_bytes()))
    with pytest.raises(JournalFault):
        publish(two.signer(bad))
    assert not two.files()


def test_the_service_says_that_the_journal_is_missing_and_continues_when_it_is_there(
    two: ReceiptsAuction,
) -> None:
    moved = two.journal_file.rename(two.folder / "moved.journal")
    two.begin_service()
    try:
        wait_for("it says so", lambda: b"no sheet gets a receipt" in two.log.read_bytes(), 30)
        moved.rename(two.journal_file)
        two.await_receipts("X/1-1", "X/1-2")
    finally:
        two.kill_service()
