"""`auction commit` makes nothing if the journal closes a round."""
import json
import pathlib

import pytest

from tests.lib.journals import journal_of
from tests.lib.paths import auction
from tests.standby.folders import DOCUMENT, closing, sheet

pytestmark = pytest.mark.early
ROUND = [sheet("X", 1, 2), closing(1)]


def committed(folder: pathlib.Path, texts: list[bytes], name: str = "auction.journal") -> str:
    """Calls the command with a journal of these requests. Returns what it says if it refuses."""
    (folder / "setup.json").write_text(DOCUMENT)
    (folder / name).write_bytes(journal_of(DOCUMENT.encode(), texts))
    words = [folder / each for each in ("setup.json", "kept", "public")]
    done = auction("commit", *words)
    made = [path for path in folder.rglob("*") if path.suffix == ".pem" or "chain" in path.name]
    assert bool(made) == (done.returncode == 0), (done.stderr, made)
    return done.stderr


def test_a_journal_with_a_closing_forbids_a_new_chain(tmp_path: pathlib.Path) -> None:
    assert "the auction has begun" in committed(tmp_path, ROUND)


def test_the_journal_of_the_settings_counts(tmp_path: pathlib.Path) -> None:
    (tmp_path / "elsewhere").mkdir()
    settings = {"url": "http://127.0.0.1:9", "setup": "setup.json", "token": "operator.token"}
    settings["journal"] = "elsewhere/auction.journal"
    (tmp_path / "conductor.json").write_text(json.dumps(settings))
    assert "the auction has begun" in committed(tmp_path, ROUND, "elsewhere/auction.journal")


@pytest.mark.parametrize(
    "texts", [[], [sheet("X", 1, 2)]], ids=["an empty journal", "a journal with a sheet"]
)
def test_a_journal_without_a_closing_forbids_nothing(
    tmp_path: pathlib.Path, texts: list[bytes]
) -> None:
    assert committed(tmp_path, texts) == ""


def test_a_lost_key_is_not_made_again(tmp_path: pathlib.Path) -> None:
    assert committed(tmp_path, []) == ""
    for name in ("kept/receipts.pem", "public/commitment.json"):
        (tmp_path / name).unlink()
    (tmp_path / "auction.journal").write_bytes(journal_of(DOCUMENT.encode(), ROUND))
    words = [tmp_path / each for each in ("setup.json", "kept", "public")]
    assert "its key" in auction("commit", *words).stderr
    assert not (tmp_path / "kept/receipts.pem").exists()
