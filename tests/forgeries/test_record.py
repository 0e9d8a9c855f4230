"""`auction record`: its files, and what it refuses. `auction verify` finds each changed file."""
import hashlib
import os
import pathlib
import shutil
import subprocess
import sys
from collections.abc import Callable, Iterator

import pytest

from tests.forgeries import tables
from tests.forgeries.auction import BIDDERS, WitnessedAuction
from tests.lib.paths import AUCTION
from tests.lib.setups import OPERATOR

INDEX = "SHA256SUMS"
TABLES = [
    *("activity.csv", "bids.csv", "digests.csv", "processed_demands.csv", "product_results.csv"),
    *("sheets.csv", "ties.csv", "winners.csv"),
    *("audit.txt", "public_setup.json", "receipts_key.pem"),
]
WITH_TOKENS = {"setup.json", "auction.journal"}
PUBLISHED = ["commitment.json", *(f"rounds/{number}.json" for number in (1, 2, 3))]
FILES = [*TABLES, *sorted(WITH_TOKENS), *PUBLISHED, "README.txt", INDEX]
KILLS = [1, 2, 9, 16, 99, 99]  # files after which it is killed; 99 is when the record is complete


def words_of(auction: WitnessedAuction, folder: pathlib.Path) -> list[object]:
    return ["record", auction.setup_file, auction.journal_file, auction.public, folder]


def made(auction: WitnessedAuction, folder: pathlib.Path, *words: str) -> tuple[int, str]:
    """Runs `auction record`. Returns its status and its output."""
    done = auction.run(*words_of(auction, folder), *words)
    return done.returncode, done.stdout + done.stderr


def files_of(folder: pathlib.Path) -> dict[str, bytes]:
    paths = (path for path in folder.rglob("*") if path.is_file())
    return {str(path.relative_to(folder)): path.read_bytes() for path in paths}


@pytest.fixture(scope="module")
def record(honest: WitnessedAuction, tmp_path_factory: pytest.TempPathFactory) -> pathlib.Path:
    """The record of an auction that has ended."""
    folder = tmp_path_factory.mktemp("record") / "record"
    status, words = made(honest, folder)
    assert status == 0, words
    return folder


# ---- An honest record


def test_a_record_has_exactly_its_files(record: pathlib.Path) -> None:
    assert sorted(files_of(record)) == sorted(FILES)


def test_a_record_that_is_there_is_left(honest: WitnessedAuction, record: pathlib.Path) -> None:
    before = files_of(record)
    status, words = made(honest, record)
    assert status == 1
    assert "is there already" in words
    assert files_of(record) == before


def test_a_record_verifies(honest: WitnessedAuction, record: pathlib.Path) -> None:
    assert honest.shown(published=record) == {}


@pytest.mark.needs("sha256sum")
def test_sha256sum_accepts_the_index(record: pathlib.Path) -> None:
    words = ["sha256sum", "--quiet", "--strict", "-c", INDEX]
    done = subprocess.run(words, cwd=record, capture_output=True, text=True, check=False)
    assert (done.returncode, done.stdout + done.stderr) == (0, "")


def test_only_the_set_up_and_the_journal_have_tokens(record: pathlib.Path) -> None:
    tokens = [token.encode() for token in (OPERATOR, *(name * 16 for name in BIDDERS))]
    files = files_of(record)
    found = {name for name, text in files.items() if any(token in text for token in tokens)}
    assert found == WITH_TOKENS


def test_a_record_has_what_a_witness_saved(honest: WitnessedAuction, record: pathlib.Path) -> None:
    saved, files = files_of(honest.saved), files_of(record)
    assert {name: files.get(name) for name in saved} == saved


# ---- Its tables, calculated by hand


@pytest.mark.parametrize(
    ("name", "text"), [("bids.csv", tables.BIDS), ("product_results.csv", tables.PRODUCTS)]
)
def test_a_table_is_as_it_was_calculated(record: pathlib.Path, name: str, text: str) -> None:
    assert (record / name).read_text() == text


def test_the_sheets_are_as_they_were_sent(record: pathlib.Path) -> None:
    """None came through nginx, so none has a time or a person."""
    assert tables.rows_of(record / "sheets.csv", 5) == [[*row, "", ""] for row in tables.SHEETS]


def test_the_ties_are_of_all_pairs_from_round_2(record: pathlib.Path) -> None:
    assert list(tables.ties_in(record)) == tables.TIES


def test_the_winners_are_those_of_the_ties(record: pathlib.Path) -> None:
    wanted = tables.WINNERS[tables.case_of(record)]
    assert tables.rows_of(record / "winners.csv") == wanted


def test_the_demands_are_those_of_the_ties(record: pathlib.Path) -> None:
    wanted = tables.DEMANDS + tables.LAST_DEMANDS[tables.case_of(record)]
    assert tables.rows_of(record / "processed_demands.csv", 2) == wanted


def test_the_activity_is_that_of_the_ties(record: pathlib.Path) -> None:
    wanted = tables.ACTIVITY + tables.LAST_ACTIVITY[tables.case_of(record)]
    assert tables.rows_of(record / "activity.csv", 2) == wanted


# ---- Changed records


@pytest.fixture
def copy(record: pathlib.Path, tmp_path: pathlib.Path) -> pathlib.Path:
    """A copy of the record, to change."""
    return shutil.copytree(record, tmp_path / "copy")


def change(file: pathlib.Path) -> None:
    """Changes a bit in the middle of a file."""
    text = file.read_bytes()
    place = len(text) // 2
    file.write_bytes(text[:place] + bytes([text[place] ^ 1]) + text[place + 1 :])


def write_index(folder: pathlib.Path) -> None:
    """Makes the index again, as anyone who changed a file would."""
    files = {name: content for name, content in files_of(folder).items() if name != INDEX}
    lines = [f"{hashlib.sha256(files[name]).hexdigest()}  {name}\n" for name in sorted(files)]
    (folder / INDEX).write_text("".join(lines))


CHANGES: dict[str, Callable[[pathlib.Path], None]] = {
    "changed": change,
    "removed": pathlib.Path.unlink,
}
each_change = pytest.mark.parametrize("how", CHANGES.values(), ids=CHANGES)


@each_change
@pytest.mark.parametrize("name", [name for name in FILES if name != INDEX])
def test_the_index_shows_a_changed_or_removed_file(
    honest: WitnessedAuction, copy: pathlib.Path, name: str, how: Callable[[pathlib.Path], None]
) -> None:
    how(copy / name)
    assert "index" in honest.failed(published=copy)


def test_a_changed_index_shows(honest: WitnessedAuction, copy: pathlib.Path) -> None:
    change(copy / INDEX)
    assert "index" in honest.failed(published=copy)


def test_a_record_without_its_index_is_no_record(
    honest: WitnessedAuction, copy: pathlib.Path
) -> None:
    (copy / INDEX).unlink()
    assert list(honest.failed(published=copy)) == ["index"]


def test_a_record_without_its_index_and_with_a_false_table_is_shown(
    honest: WitnessedAuction, copy: pathlib.Path
) -> None:
    (copy / INDEX).unlink()
    change(copy / "winners.csv")
    assert list(honest.shown(published=copy)) == ["index"]


def test_a_folder_without_an_index_says_what_was_not_checked(
    honest: WitnessedAuction, copy: pathlib.Path
) -> None:
    """A witness may have notes next to what it saved."""
    saved = copy / "saved"
    shutil.copytree(honest.saved, saved)
    (saved / "notes.txt").write_text("seen at noon\n")
    done = honest.run("verify", *honest.words(None, saved, ""))
    assert "SHA256SUMS, and notes.txt were not checked\n" in done.stdout
    assert done.returncode == 0


def test_the_index_shows_an_added_file(honest: WitnessedAuction, copy: pathlib.Path) -> None:
    (copy / "more.csv").write_text("round\n")
    assert "index" in honest.failed(published=copy)


@each_change
@pytest.mark.parametrize("name", TABLES)
def test_the_content_shows_a_changed_or_removed_table_if_the_index_is_made_again(
    honest: WitnessedAuction, copy: pathlib.Path, name: str, how: Callable[[pathlib.Path], None]
) -> None:
    how(copy / name)
    write_index(copy)
    assert "tables" in honest.failed(published=copy)


# ---- Files that a forger adds or exchanges, and then makes the index again


def add_notice(folder: pathlib.Path) -> None:
    (folder / "notice.csv").write_text("round,price\n3,1\n")


def add_hidden(folder: pathlib.Path) -> None:
    (folder / "rounds/.3.csv").write_text("price\n")


def add_link(folder: pathlib.Path) -> None:
    (folder / "link").symlink_to(folder / "rounds")


def repeat_line(folder: pathlib.Path) -> None:
    index = (folder / INDEX).read_text().splitlines(keepends=True)
    (folder / INDEX).write_text("".join([*index, index[0]]))


def exchange_journal(folder: pathlib.Path) -> None:
    journal = folder / "auction.journal"
    journal.write_bytes(journal.read_bytes()[:-1])


def exchange_set_up(folder: pathlib.Path) -> None:
    setup = folder / "setup.json"
    setup.write_bytes(setup.read_bytes() + b"\n")


# Each change, whether the index is made again, the checks that fail, and what they say.
ADDED: dict[str, tuple[Callable[[pathlib.Path], None], bool, str, str]] = {
    "a-false-table": (add_notice, True, "tables", "notice.csv is no file of a record"),
    "a-hidden-file": (add_hidden, True, "tables", "rounds/.3.csv is no file of a record"),
    "a-link-to-a-folder": (add_link, False, "tables index", "link is no file of a record"),
    "another-README": (lambda folder: change(folder / "README.txt"), True, "tables", "README.txt"),
    "a-line-twice": (repeat_line, False, "index", "SHA256SUMS is not written as"),
    "another-journal": (exchange_journal, True, "tables", "another file than the one that is"),
    "another-set-up": (exchange_set_up, True, "tables", "another file than the one that is"),
}


@pytest.mark.parametrize(("how", "again", "checks", "words"), ADDED.values(), ids=ADDED)
def test_a_file_that_is_not_of_this_record_is_shown(
    honest: WitnessedAuction,
    copy: pathlib.Path,
    how: Callable[[pathlib.Path], None],
    again: bool,
    checks: str,
    words: str,
) -> None:
    how(copy)
    if again:
        write_index(copy)
    failed = honest.failed(published=copy)
    assert list(failed) == checks.split()
    assert words in failed[checks.split()[0]]


# ---- Before the end


def test_before_the_end_no_record_is_made(begun: WitnessedAuction, tmp_path: pathlib.Path) -> None:
    status, words = made(begun, tmp_path / "record")
    assert status == 1
    assert "has not ended" in words
    assert not (tmp_path / "record").exists()


def test_a_record_of_an_auction_that_was_given_up_verifies(
    begun: WitnessedAuction, tmp_path: pathlib.Path
) -> None:
    status, words = made(begun, tmp_path / "record", "--not-ended")
    assert status == 0, words
    assert begun.failed(published=tmp_path / "record") == {}


# ---- Kills


def files_in(folder: pathlib.Path) -> int:
    """The number of files and folders in a folder, or 0 if it does not exist."""
    try:
        return len(os.listdir(folder))
    except FileNotFoundError:
        return 0


@pytest.fixture(params=KILLS, ids=lambda least: f"after-{least}-files")
def killed(
    honest: WitnessedAuction, tmp_path: pathlib.Path, request: pytest.FixtureRequest
) -> Iterator[pathlib.Path]:
    """The place of a record whose making was killed."""
    folder = tmp_path / "record"
    fresh = tmp_path / "record.new"
    words = [sys.executable, str(AUCTION), *map(str, words_of(honest, folder))]
    quiet = subprocess.DEVNULL
    child = subprocess.Popen(words, stdin=quiet, stdout=quiet, stderr=quiet)
    while not folder.exists() and files_in(fresh) < request.param:
        assert child.poll() is None or folder.exists(), "it has ended without a record"
    child.kill()
    child.wait()
    yield folder


def test_a_record_is_whole_or_not_there_after_a_kill(
    honest: WitnessedAuction, killed: pathlib.Path
) -> None:
    if not killed.exists():
        status, words = made(honest, killed)
        assert status == 0, words
    assert honest.failed(published=killed) == {}
