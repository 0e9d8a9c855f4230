"""Files that would accuse an innocent operator: each check says that they prove nothing."""
import json
import pathlib

import pytest

from tests.forgeries.auction import WitnessedAuction
from tests.forgeries.changes import TEXTS, TRUE
from tests.forgeries.written import BIDDERS, Evidence
from tests.lib.paths import auction


def exchanged(document: bytes) -> bytes:
    """A set-up in which two bidders have each other's token."""
    value = json.loads(document)
    one, other = value["bidders"][:2]
    one["token"], other["token"] = other["token"], one["token"]
    return json.dumps(value).encode()


def check(
    honest: WitnessedAuction, name: str, *words: object, token: str = ""
) -> tuple[int, list[str]]:
    """The status of `auction check-receipts`, and its lines."""
    copy = "--commitment", honest.saved / "commitment.json"
    files = honest.folder / f"{name}.jsonl", honest.journal_file
    done = auction("check-receipts", *files, *copy, *words, env={"TOKEN": token})
    return done.returncode, (done.stdout + done.stderr).splitlines()


def test_a_set_up_with_exchanged_tokens_is_refused_by_check_receipts(
    honest: WitnessedAuction, tmp_path: pathlib.Path
) -> None:
    (tmp_path / "setup.json").write_bytes(exchanged(honest.document))
    status, lines = check(honest, "X", "--setup", tmp_path / "setup.json")
    assert status == 1
    assert len(lines) == 1
    assert "is another set-up than the committed one, so its tokens prove nothing" in lines[0]


def test_a_token_of_another_bidder_gives_one_fault_and_not_one_for_each_sheet(
    honest: WitnessedAuction,
) -> None:
    status, lines = check(honest, "X", token="Y" * 16)
    assert status == 1
    assert len(lines) == 2, lines
    assert "or the given token is another bidder's" in lines[0]


@pytest.mark.early
def test_a_set_up_with_exchanged_tokens_makes_no_receipt_false_in_verify(
    tmp_path: pathlib.Path,
) -> None:
    found = Evidence(TRUE, TEXTS)
    found.document = exchanged(TRUE.document)
    failed = found.failed(tmp_path, BIDDERS)
    assert failed["receipts"].startswith("the set-up is another one than the committed one")
    assert "commitment" in failed
