"""The service `auction receipts`: which sheets get a receipt, and what a receipt is."""
import hashlib
import json
import pathlib
import subprocess
from collections.abc import Iterator

import pytest

from tests.lib.waiting import wait_for
from tests.receipts.auction import NAMES, ReceiptsAuction

BURST = 60  # sheets at once
# The receipts of the played auction, in the order of the journal.
PLAYED = ["X/1-1", "Y/1-1", "X/1-2", "X/1-3", "X/1-4", "X/2-1"]
FIELDS = ("auction", "bidder", "by", "round", "sheet", "taken", "body", "text")
VERIFY = "openssl pkeyutl -verify -rawin -pubin -inkey key -sigfile signature -in message".split()
REFUSED: dict[str, object] = {
    "no-body": None,
    "price-too-low": {"bids": [{"price": 99, "product": 0, "quantity": 1}], "round": 1},
    "next-round": {"bids": [], "round": 2},
}


@pytest.fixture(scope="module")
def played(
    program: pathlib.Path, tmp_path_factory: pytest.TempPathFactory
) -> Iterator[ReceiptsAuction]:
    """An auction of two rounds. The service starts late, and is killed between the rounds."""
    with ReceiptsAuction(program, tmp_path_factory.mktemp("played")) as auction:
        auction.send("X", 2)
        auction.begin_service()
        auction.await_receipts("X/1-1")
        for count, (name, quantity) in enumerate((("Y", 9), ("X", 2), ("X", 3), ("X", 2)), 2):
            auction.send(name, quantity)
            auction.await_receipts(*PLAYED[:count])
        auction.kill_service()
        auction.close_by_hand(1)
        auction.send("X", 4, 2, 110)
        auction.begin_service()
        auction.await_receipts(*PLAYED)
        auction.kill_service()
        yield auction


def test_each_accepted_sheet_gets_one_receipt(played: ReceiptsAuction) -> None:
    assert set(played.files()) == {f"{name}.json" for name in PLAYED}


@pytest.mark.parametrize("value", REFUSED.values(), ids=REFUSED)
def test_a_refused_sheet_gets_no_receipt(auction: ReceiptsAuction, value: object) -> None:
    auction.begin_service()
    assert "code" in auction.ask("PUT /v1/me/bids", "Z" * 16, value)
    auction.send("X", 1)
    auction.await_receipts("X/1-1")


def digest_of(data: bytes) -> str:
    return hashlib.sha256(data).hexdigest()


def values_of(played: ReceiptsAuction, name: str) -> dict[str, object]:
    """The values of a receipt, by docs/formats.md, from the journal."""
    puts = [text for text in played.texts() if text.startswith(b"PUT")]
    text = puts[PLAYED.index(name)]
    number, sheet = map(int, name[2:].split("-"))
    return {
        "auction": digest_of(played.document),
        "bidder": name[0],
        "body": digest_of(text.partition(b"\r\n\r\n")[2]),
        "by": "",
        "round": number,
        "sheet": sheet,
        "taken": "",
        "text": digest_of(text),
    }


@pytest.mark.parametrize("name", PLAYED)
def test_a_receipt_is_about_its_sheet_in_the_journal(played: ReceiptsAuction, name: str) -> None:
    page = json.loads(played.files()[f"{name}.json"])
    del page["signature"]
    assert page == values_of(played, name)


@pytest.mark.needs("openssl")
@pytest.mark.parametrize("name", PLAYED)
def test_openssl_accepts_the_signature(
    played: ReceiptsAuction, tmp_path: pathlib.Path, name: str
) -> None:
    """By the words of docs/bidders.md."""
    key = json.loads((played.public / "commitment.json").read_text())["key"]
    pem = f"-----BEGIN PUBLIC KEY-----\n{key}\n-----END PUBLIC KEY-----\n"
    values = values_of(played, name)
    lines = ["clock_auction receipt 2", *(f"{field} {values[field]}" for field in FIELDS)]
    page = json.loads(played.files()[f"{name}.json"])
    (tmp_path / "key").write_text(pem)
    (tmp_path / "message").write_text("".join(f"{line}\n" for line in lines))
    (tmp_path / "signature").write_bytes(bytes.fromhex(page["signature"]))
    done = subprocess.run(VERIFY, cwd=tmp_path, capture_output=True, check=False)
    assert done.returncode == 0, done


def test_a_second_run_makes_no_receipt(played: ReceiptsAuction) -> None:
    assert played.sign_once() == (0, "receipts 0\n")


def test_a_lost_receipt_is_made_again_with_the_same_bytes(played: ReceiptsAuction) -> None:
    files = played.files()
    for file in ("X/1-2.json", "Y/1-1.json"):
        (played.receipts / file).unlink()
    assert played.sign_once() == (0, "receipts 2\n")
    assert played.files() == files


def test_receipts_are_for_their_owner_and_group_only(played: ReceiptsAuction) -> None:
    assert {file.stat().st_mode & 0o777 for file in played.receipts.rglob("*.json")} == {0o640}


def test_folders_of_receipts_are_for_their_owner_and_group_only(played: ReceiptsAuction) -> None:
    assert (played.receipts / "X").stat().st_mode & 0o777 == 0o750


def test_the_service_says_nothing_if_all_is_well(played: ReceiptsAuction) -> None:
    assert played.log.read_text() == ""


def test_sheets_in_a_burst_all_get_receipts(auction: ReceiptsAuction) -> None:
    auction.begin_service()
    auction.send("Z", 1)
    auction.await_receipts("Z/1-1")
    for count in range(BURST):
        auction.send(NAMES[count % 3], 1)
    wait_for("all receipts", lambda: len(auction.files()) == BURST + 1, 30)
