"""One service signs by a key, and only for the auction whose key it has read."""
import pathlib

import pytest

from auction.conductor.clear import ClearFault, clear
from auction.formats.signatures import new_key
from auction.receipts import Key, OtherAuction
from tests.receipts.auction import SECONDS, ReceiptsAuction


@pytest.fixture
def key(tmp_path: pathlib.Path) -> pathlib.Path:
    """A file with a key."""
    file = tmp_path / "receipts.pem"
    file.write_bytes(new_key())
    return file


def test_a_second_service_is_refused(auction: ReceiptsAuction) -> None:
    auction.send("X", 1)
    auction.begin_service()
    auction.await_receipts("X/1-1")
    status, words = auction.sign_once()
    assert status == 1
    assert "another `auction receipts` runs" in words


def test_after_a_kill_the_next_service_signs(auction: ReceiptsAuction) -> None:
    auction.send("X", 1)
    auction.begin_service()
    auction.await_receipts("X/1-1")
    auction.kill_service()
    auction.send("X", 2)
    assert auction.sign_once() == (0, "receipts 1\n")


def test_nothing_is_put_away_while_the_service_runs(auction: ReceiptsAuction) -> None:
    (auction.folder / "conductor.json").write_text(
        '{"url":"http://127.0.0.1:1","setup":"setup.json","token":"operator.token",'
        '"journal":"auction.journal"}'
    )
    auction.send("X", 1)
    auction.begin_service()
    auction.await_receipts("X/1-1")
    auction.server.kill()
    with pytest.raises(ClearFault, match="`auction receipts` runs"):
        clear(auction.folder, 0)
    assert auction.setup_file.exists()
    auction.kill_service()
    past, _ = clear(auction.folder, 0)
    assert (past / "receipts/X/1-1.json").exists()


def test_the_same_key_is_no_other_auction(key: pathlib.Path) -> None:
    Key(key).check()


@pytest.mark.parametrize("text", [None, "same", "other"], ids=["none", "copied", "another"])
def test_another_file_with_a_key_is_another_auction(key: pathlib.Path, text: str | None) -> None:
    """As after the folder was put away, and perhaps made again: a copy has a rehearsal's set-up."""
    one, secret = Key(key), key.read_bytes()
    key.rename(key.with_name("past.pem"))
    if text is not None:
        key.write_bytes(secret if text == "same" else new_key())
    with pytest.raises(OtherAuction):
        one.check()


def test_a_service_that_outlives_its_auction_ends_and_signs_nothing_more(
    auction: ReceiptsAuction,
) -> None:
    """The next auction has the same set-up, as a repeated rehearsal has, and another key."""
    auction.send("X", 1)
    auction.begin_service()
    auction.await_receipts("X/1-1")
    auction.kept.rename(auction.folder / "past")
    auction.kept.mkdir()
    (auction.kept / "receipts.pem").write_bytes(new_key())
    auction.send("X", 2)
    assert auction.service is not None
    assert auction.service.wait(SECONDS) == 1
    assert set(auction.files()) <= {"X/1-1.json", "X/1-2.json"}
    assert b"is not the file that was read: start again" in auction.log.read_bytes()
