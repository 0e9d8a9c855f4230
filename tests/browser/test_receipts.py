"""What the bidder's page says of receipts, and what it saves of them."""
import json
import pathlib

import pytest

from auction.formats.receipts import faults, read_kept
from tests.browser.auction import Auction, X, bid, example
from tests.browser.conftest import Begin
from tests.browser.people import close_round, enter
from tests.browser.window import Window
from tests.lib.setups import OPERATOR

HERE = "The receipt is here: download it."
NONE = "No receipt within five seconds: call the operator."
NOT_SENT = "round 1, sheet 1: the file does not say that X sent this sheet."


@pytest.fixture
def auction(begin: Begin) -> Auction:
    return begin(example("one_product"))


def submitted(window: Window) -> str:
    """Submits again, and returns what is said of the receipt."""
    window.submit()
    words = (HERE, NONE, "The receipt is wrong")
    window.until(
        "the receipt is spoken of", lambda: any(w in window.text("message") for w in words)
    )
    return next(each for each in words if each in window.text("message"))


def test_without_the_service_there_is_no_receipt(auction: Auction, x: Window) -> None:
    enter(auction, x)
    x.bid(0, 1, 100)
    x.send("1 bid in force since", NONE)
    assert x.kind("message") == "bad"
    x.click("menuhead")
    assert not x.is_seen("receipts"), "there is none to download"


def test_receipts_are_saved_and_fit_the_journal(
    auction: Auction, x: Window, downloads: pathlib.Path
) -> None:
    """The first sheet comes by another way; those after it are of this tab."""
    auction.put(X, 1, bid(0, 2, 100))
    auction.begin_receipts()
    first = auction.folder / "receipts/X/1-1.json"
    x.until("the first receipt", first.exists)
    enter(auction, x)
    x.bid(0, 1, 100)
    # On a very busy machine, a receipt may need more than five seconds.
    count = 2 + next(sent for sent in range(8) if submitted(x) == HERE)
    x.click("act")
    file = downloads / "receipts-X.jsonl"
    x.until("the file", lambda: len(read_kept(file).receipts) == count)
    kept = read_kept(file)
    own = [bool(each.sent) for each in kept.receipts]
    assert own[0] is False and own[-1] is True, "the bids that this tab submitted are in it"
    found = faults(kept, (auction.folder / "auction.journal").read_bytes())
    assert len(found) == 1 and found[0].startswith(NOT_SENT), "the one that came another way"


def test_after_a_reload_the_file_accounts_for_each_sheet(
    auction: Auction, x: Window, downloads: pathlib.Path
) -> None:
    """It has the bidder's name, and what this tab sent before."""
    auction.begin_receipts()
    enter(auction, x)
    x.bid(0, 1, 100)
    count = 1 + next(sent for sent in range(8) if submitted(x) == HERE)
    enter(auction, x)
    assert x.text("strange") == ""
    x.menu("receipts")
    file = downloads / "receipts-X.jsonl"
    x.until("the file", lambda: len(read_kept(file).receipts) == count)
    kept = read_kept(file)
    assert (kept.bidder, kept.sent.total()) == ("X", count)
    assert faults(kept, (auction.folder / "auction.journal").read_bytes()) == []


def test_a_sheet_that_this_tab_did_not_send_is_reported(auction: Auction, x: Window) -> None:
    auction.put(X, 1, bid(0, 2, 100))
    auction.begin_receipts()
    x.until("the first receipt", (auction.folder / "receipts/X/1-1.json").exists)
    enter(auction, x)
    x.says("strange", "One sheet in your name was not sent from this tab: sheet 1 of round 1.")


def test_a_sheet_that_is_put_in_later_is_reported_after_the_closing(
    auction: Auction, x: Window, operator: Window
) -> None:
    auction.begin_receipts()
    enter(auction, x)
    assert x.text("strange") == ""
    auction.put(X, 1, bid(0, 2, 100))
    x.until("the receipt", (auction.folder / "receipts/X/1-1.json").exists)
    enter(auction, operator, OPERATOR)
    close_round(operator)
    x.says("strange", "One sheet in your name was not sent from this tab: sheet 1 of round 1.")


def test_receipts_before_this_tab_are_loaded(
    auction: Auction, x: Window, downloads: pathlib.Path
) -> None:
    auction.put(X, 1, bid(0, 2, 100))
    auction.begin_receipts()
    x.until("the first receipt", (auction.folder / "receipts/X/1-1.json").exists)
    enter(auction, x)
    x.menu("receipts")
    file = downloads / "receipts-X.jsonl"
    x.until("the file", lambda: len(read_kept(file).receipts) == 1)


def test_a_sheet_without_a_receipt_is_a_fault_of_the_file(
    begin: Begin, x: Window, downloads: pathlib.Path
) -> None:
    """A receipt that is gone shows, since the file has the next one."""
    auction = begin(example("one_product"))
    enter(auction, x)
    x.bid(0, 1, 100)
    x.send("1 bid in force since")
    service = auction.begin_receipts()
    first = auction.folder / "receipts/X/1-1.json"
    x.until("a receipt", first.exists)
    service.kill()
    service.wait()
    auction.put(X, 1, bid(0, 2, 100))
    enter(auction, x)
    x.menu("receipts")
    file = downloads / "receipts-X.jsonl"
    x.until("the file", lambda: len(read_kept(file).receipts) == 1)
    found = faults(read_kept(file), (auction.folder / "auction.journal").read_bytes())
    assert len(found) == 1
    assert found[0].startswith("round 1, sheet 2: the journal has it, and there is no receipt")


def test_a_wrong_receipt_is_named(auction: Auction, x: Window) -> None:
    service = auction.begin_receipts()
    enter(auction, x)
    x.bid(0, 1, 100)
    x.submit()
    file = auction.folder / "receipts/X/1-1.json"
    x.until("a receipt", file.exists)
    service.kill()
    service.wait()
    page = json.loads(file.read_text())
    file.with_name("1-2.json").write_text(json.dumps({**page, "sheet": 2}))
    x.until("the first one is spoken of", lambda: "eceipt" in x.text("message"))
    x.bid(0, 2, 100)
    x.send("The receipt is wrong: call the operator.")
    assert x.kind("message") == "bad"


# ---- Refusals of late sheets


def late(auction: Auction, x: Window) -> None:
    """Submits a sheet while no window is open, which the page does not know."""
    enter(auction, x)
    (auction.folder / "gate/open").unlink()
    x.bid(0, 1, 100)
    x.submit()
    x.says("message", "Refused: the round is not open for bids")


def test_the_signed_refusal_of_a_late_sheet_is_shown_and_saved(
    auction: Auction, x: Window, downloads: pathlib.Path
) -> None:
    auction.begin_receipts()
    late(auction, x)
    x.says("message", "The refusal is signed, of ", ": download it.")
    x.click("act")
    file = downloads / "receipts-X.jsonl"
    x.until("the file", lambda: len(read_kept(file).refusals) == 1)
    [kept] = read_kept(file).refusals
    assert (kept.refusal.bidder, kept.refusal.number) == ("X", 1)
    assert faults(read_kept(file), (auction.folder / "auction.journal").read_bytes()) == []


def test_after_a_reload_the_refusal_is_still_there(
    auction: Auction, x: Window, downloads: pathlib.Path
) -> None:
    auction.begin_receipts()
    late(auction, x)
    x.says("message", "The refusal is signed, of ")
    (auction.folder / "receipts/X/refused.json").unlink()
    enter(auction, x)
    x.menu("receipts")
    file = downloads / "receipts-X.jsonl"
    x.until("the file", lambda: len(read_kept(file).refusals) == 1)


def test_without_the_service_no_refusal_is_signed(auction: Auction, x: Window) -> None:
    late(auction, x)
    x.says("message", "No signed refusal within five seconds: call the operator.")


def test_a_wrong_refusal_is_named(auction: Auction, x: Window) -> None:
    """It has a time that the operator did not sign."""
    folder = auction.folder / "receipts/X"
    folder.mkdir(parents=True)
    page = {"auction": auction_digest(auction), "bidder": "X", "by": "", "number": 1}
    signed = {**page, "signature": "0" * 128, "time": "2026-11-30T13:00:00Z"}
    late(auction, x)
    (folder / "refused.json").write_text(json.dumps(signed))
    x.says("message", "The signed refusal is wrong: call the operator.")


def auction_digest(auction: Auction) -> str:
    """The digest of the set-up, as the commitment has it."""
    page = json.loads((auction.folder / "public/commitment.json").read_text())
    return str(page["auction"])
