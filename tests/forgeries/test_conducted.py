"""What the conductor publishes of an auction: all of it verifies, and each false word is found."""
import pathlib
import shutil
from collections.abc import Iterator

import pytest

from auction.conductor import commands
from auction.verify.case import Case
from auction.verify.findings import ABSENT, FAILED, OK, findings
from tests.lib.conducted import conducted
from tests.lib.paths import auction

OF_NOTICES = ("notices", "copies", "rounds", "windows", "increments")
WITHOUT_RECORD = ["draw", "lots", "receipts", "tables", "index"]
# Each false word: its file, the right word, the false one, and the checks that fail.
FALSE_WORDS = [
    ("rounds/2.json", '"posted":', '"posted":1', "results"),
    ("rounds/2.json", '"ended":false', '"ended":true', "results"),
    ("rounds/2.json", '"digest":"', '"digest":"0', "digests announcements"),
    ("rounds/2.json", '"seed":"', '"seed":"00', "ties"),
    ("rounds/2.json", '"seed":', '"seeds":', "results ties"),
    ("announcements.json", "Its digest is ", "Its digest is 0", "announcements"),
    ("winners.json", '"pays":', '"pays":1', "winners"),
    ("winners.json", '"demands":[', '"demands":[1', "winners"),
    ("commitment.json", '"end":"', '"end":"0', "commitment winners ties lots"),
]
STRANGE = "digests results announcements ties"
ADDED = [("0", STRANGE), ("01", STRANGE), ("4", "digests announcements")]


@pytest.fixture(scope="module")
def folder(program: pathlib.Path) -> Iterator[pathlib.Path]:
    """The conductor's folder of an auction that has ended, with its winners."""
    with conducted(program) as played:
        played.play()
        commands.winners(played.context())
        yield played.folder


@pytest.fixture
def copy(folder: pathlib.Path, tmp_path: pathlib.Path) -> pathlib.Path:
    """A copy of what was published, to change."""
    return shutil.copytree(folder / "public", tmp_path / "public")


def results_of(folder: pathlib.Path, published: pathlib.Path, wanted: str) -> list[str]:
    """The subjects of the checks with a result, for what was published in a folder.

    Those of notices are tried in test_announced.py.
    """
    case = Case(folder / "setup.json", folder / "auction.journal", published)
    subjects = dict.fromkeys(found.subject for found in findings(case) if found.result == wanted)
    return [subject for subject in subjects if subject not in OF_NOTICES]


def test_nothing_fails(folder: pathlib.Path) -> None:
    assert results_of(folder, folder / "public", FAILED) == []


def test_only_receipts_and_a_record_are_absent(folder: pathlib.Path) -> None:
    assert results_of(folder, folder / "public", ABSENT) == WITHOUT_RECORD


def test_nine_checks_hold(folder: pathlib.Path) -> None:
    assert len(results_of(folder, folder / "public", OK)) == 9


def test_a_record_of_it_verifies(folder: pathlib.Path, tmp_path: pathlib.Path) -> None:
    record = tmp_path / "record"
    files = [folder / name for name in ("setup.json", "auction.journal", "public")]
    done = auction("record", *files, record)
    assert done.returncode == 0, done
    assert results_of(folder, record, FAILED) == []
    assert results_of(folder, record, ABSENT) == ["draw", "lots", "receipts"]


@pytest.mark.parametrize(
    ("name", "true", "false", "checks"),
    FALSE_WORDS,
    ids=[f"{name}-{false}" for name, _, false, _ in FALSE_WORDS],
)
def test_a_false_word_fails_its_checks_only(
    folder: pathlib.Path, copy: pathlib.Path, name: str, true: str, false: str, checks: str
) -> None:
    text = (copy / name).read_text()
    assert true in text
    (copy / name).write_text(text.replace(true, false, 1))
    assert results_of(folder, copy, FAILED) == checks.split()


@pytest.mark.parametrize(("name", "checks"), ADDED, ids=[name for name, _ in ADDED])
def test_a_round_that_is_none_fails(
    folder: pathlib.Path, copy: pathlib.Path, name: str, checks: str
) -> None:
    shutil.copy(copy / "rounds/3.json", copy / f"rounds/{name}.json")
    assert results_of(folder, copy, FAILED) == checks.split()
