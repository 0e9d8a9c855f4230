"""Exchanges after the end: of the set-up, the key of receipts, and a bidder's own receipt."""
import json
import pathlib
import shutil

import pytest

from auction.formats.strict import published
from auction.verify.case import Case
from tests.forgeries.auction import WitnessedAuction, failing
from tests.lib.journals import journal_of


def test_another_set_up_is_shown_by_the_commitment_and_the_digests(
    honest: WitnessedAuction, tmp_path: pathlib.Path
) -> None:
    """X gets less eligibility than in the auction's set-up, and all digests are made again."""
    other = honest.document.replace(b'"eligibility": 4', b'"eligibility": 3', 1)
    assert other != honest.document
    paths = [tmp_path / "exchanged.json", tmp_path / "exchanged.journal"]
    paths[0].write_bytes(other)
    paths[1].write_bytes(journal_of(other, honest.texts()))
    assert list(failing(Case(*paths, honest.saved))) == ["commitment", "digests"]


@pytest.fixture
def other_key(honest: WitnessedAuction, tmp_path: pathlib.Path) -> pathlib.Path:
    """What was published, with another key of receipts."""
    folder, public = tmp_path / "other-key", tmp_path / "public"
    shutil.copytree(honest.public, folder)
    honest.succeed("commit", honest.setup_file, tmp_path / "kept", public)
    other = json.loads((public / "commitment.json").read_text())
    true = json.loads((folder / "commitment.json").read_text())
    (folder / "commitment.json").write_bytes(published({**true, "key": other["key"]}))
    return folder


def test_what_is_published_does_not_show_another_key(
    honest: WitnessedAuction, other_key: pathlib.Path
) -> None:
    assert honest.failed(published=other_key) == {}


def test_receipts_show_another_key(honest: WitnessedAuction, other_key: pathlib.Path) -> None:
    assert list(honest.shown(published=other_key, receipts="X")) == ["receipts"]


def test_a_receipt_that_a_bidder_wrote_is_shown(honest: WitnessedAuction) -> None:
    """X claims that another sheet was accepted, and writes its digest into its receipt."""
    *lines, last = (honest.folder / "X.jsonl").read_text().splitlines()
    claimed = json.dumps({**json.loads(last), "body": "0" * 64})
    (honest.folder / "C.jsonl").write_text("".join(f"{line}\n" for line in (*lines, claimed)))
    failed = honest.shown(receipts="C")
    assert list(failed) == ["receipts"]
    assert "not signed by the committed key" in failed["receipts"]
