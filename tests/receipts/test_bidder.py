"""What examples/bidder.py says of receipts and seeds: that they are there, missing, or wrong."""
import contextlib
import io
import json
import pathlib
import urllib.request
from collections.abc import Callable, Iterator
from typing import Any

import pytest

from auction.conductor.chain import Chain
from auction.formats.receipts import Receipt, Refusal, read_kept
from auction.formats.setup import Setup
from examples import bidder
from tests.lib.http import answer_to, text_of
from tests.receipts.auction import ReceiptsAuction

pytestmark = pytest.mark.needs("openssl")
COMMITMENT = "/public/commitment.json"
SHEETS = [
    {"bids": [{"price": 100, "product": 0, "quantity": quantity}], "round": 1}
    for quantity in (2, 3)
]


class Pages:
    """An auction as the bidder sees it through nginx: its pages by path."""

    def __init__(self, pages: dict[str, Any]) -> None:
        self.pages = pages

    def ask(self, path: str, shape: object, may_lack: bool) -> Any:
        return self.pages.get(path)


def receipts_of(pages: Pages, file: pathlib.Path) -> bidder.Receipts:
    return bidder.Receipts(pages, file, "X")


def printed(call: Callable[[], object]) -> str:
    """What a call prints on both streams."""
    with contextlib.redirect_stdout(io.StringIO()) as out, contextlib.redirect_stderr(out):
        call()
    return out.getvalue()


@pytest.fixture(scope="module")
def two(
    program: pathlib.Path, tmp_path_factory: pytest.TempPathFactory
) -> Iterator[ReceiptsAuction]:
    """An auction with receipts of two sheets of X, which the bidder sent."""
    with ReceiptsAuction(program, tmp_path_factory.mktemp("bidder")) as auction:
        for sheet in SHEETS:
            body = bidder.text_of(sheet).encode()
            status, _ = answer_to(auction.server.port, text_of("PUT /v1/me/bids", "X" * 16, body))
            assert status == 200
        assert auction.sign_once() == (0, "receipts 2\n")
        yield auction


@pytest.fixture
def commitment(two: ReceiptsAuction) -> dict[str, Any]:
    page: dict[str, Any] = json.loads((two.public / "commitment.json").read_text())
    return page


@pytest.fixture
def pages(two: ReceiptsAuction, commitment: dict[str, Any]) -> Pages:
    """What nginx shows X."""
    files = {f"/receipts/1/{sheet}.json": f"X/1-{sheet}.json" for sheet in (1, 2)}
    shown = {path: json.loads(two.files()[name]) for path, name in files.items()}
    return Pages({COMMITMENT: commitment, **shown})


@pytest.fixture
def file(tmp_path: pathlib.Path) -> pathlib.Path:
    """The bidder's file of receipts, which does not exist yet."""
    return tmp_path / "own.receipts"


@pytest.fixture(autouse=True)
def short_wait(monkeypatch: pytest.MonkeyPatch) -> None:
    monkeypatch.setattr(bidder, "RECEIPT_SECONDS", 0.3)


# ---- Receipts


def test_it_reports_each_receipt(pages: Pages, file: pathlib.Path) -> None:
    own = receipts_of(pages, file)
    for sheet in SHEETS:
        own.note(bidder.text_of(sheet))
    words = [printed(lambda: own.await_one(sheet)) for sheet in SHEETS]
    assert words == [f"receipt of sheet {number} of round 1\n" for number in (1, 2)]


@pytest.fixture
def own(pages: Pages, file: pathlib.Path) -> bidder.Receipts:
    """The bidder's receipts, once it has both."""
    found = receipts_of(pages, file)
    for sheet in SHEETS:
        found.note(bidder.text_of(sheet))
        printed(lambda: found.await_one(sheet))
    return found


def test_check_receipts_accepts_its_file(
    two: ReceiptsAuction, own: bidder.Receipts, file: pathlib.Path
) -> None:
    assert two.check(file)[0] == 0


def test_it_reports_a_missing_receipt(own: bidder.Receipts) -> None:
    assert "no receipt within 0.3 s" in printed(lambda: own.await_one(SHEETS[0]))


def test_started_again_it_has_its_receipts(
    own: bidder.Receipts, pages: Pages, file: pathlib.Path
) -> None:
    again = receipts_of(pages, file)
    assert (again.have, again.sent) == (own.have, own.sent)
    assert own.have == {(1, 1), (1, 2)}


def test_it_reports_a_sheet_that_it_did_not_send(
    two: ReceiptsAuction, pages: Pages, file: pathlib.Path
) -> None:
    """Its second sheet was put in, and the operator signed it."""
    own = receipts_of(pages, file)
    own.note(bidder.text_of(SHEETS[0]))
    assert "WARNING" not in printed(lambda: own.await_one(SHEETS[0]))
    assert "WARNING: sheet 2 of round 1 was accepted in your name" in printed(lambda: own.take(1))
    status, words = two.check(file)
    assert status == 1
    assert "round 1, sheet 2: the file does not say that X sent this sheet" in words


def test_it_reports_a_sheet_that_was_put_in_again(
    two: ReceiptsAuction, pages: Pages, file: pathlib.Path
) -> None:
    """It sent its first sheet once, and two receipts of this sheet come."""
    own = receipts_of(pages, file)
    own.note(bidder.text_of(SHEETS[0]))
    printed(lambda: own.await_one(SHEETS[0]))
    signer = two.signer()
    again = Receipt.of(signer.sheets.setup.digest, "X", 1, 2, two.texts()[0])
    page = again.page(signer.key.sign(again.message()))
    pages.pages["/receipts/1/2.json"] = json.loads(page)
    assert "WARNING: sheet 2 of round 1" in printed(lambda: own.take(1))


def signed_page(two: ReceiptsAuction, bidder: str, lines: bytes = b"") -> dict[str, Any]:
    """The signed receipt of a first sheet, whose request has further lines."""
    signer, text = two.signer(), two.texts()[0].replace(b"\r\n", b"\r\n" + lines, 1)
    one = Receipt.of(signer.sheets.setup.digest, bidder, 1, 1, text)
    page: dict[str, Any] = json.loads(one.page(signer.key.sign(one.message())))
    return page


def test_it_names_the_person_who_sent_a_sheet_that_it_did_not_send(
    two: ReceiptsAuction, pages: Pages, file: pathlib.Path
) -> None:
    pages.pages["/receipts/1/1.json"] = signed_page(two, "X", b"By: bob\r\n")
    words = printed(lambda: receipts_of(pages, file).take(1))
    assert "WARNING: sheet 1 of round 1 was accepted in your name, by bob, and this" in words


def test_a_receipt_of_another_bidder_is_reported_and_not_stored(
    two: ReceiptsAuction, pages: Pages, file: pathlib.Path
) -> None:
    pages.pages["/receipts/1/1.json"] = signed_page(two, "Y")
    own = receipts_of(pages, file)
    assert "this is not a receipt of sheet 1 of round 1" in printed(lambda: own.take(1))
    assert "signature" not in file.read_text()


def test_started_again_it_knows_what_it_sent(pages: Pages, file: pathlib.Path) -> None:
    """It was killed between its sheet and the receipt."""
    receipts_of(pages, file).note(bidder.text_of(SHEETS[0]))
    again = receipts_of(pages, file)
    assert "WARNING" not in printed(lambda: again.take(1))


@pytest.mark.parametrize(
    "change",
    [
        {"signature": "0" * 128},
        {"signature": "x"},
        {"round": 2},
        {"sheet": 2},
        {"auction": "0" * 64},
        {"by": "eve"},
        {"taken": "2026-11-30T13:00:00Z"},
    ],
    ids=[
        *("another-signature", "no-signature", "another-round", "another-sheet"),
        *("another-auction", "another-person", "another-time"),
    ],
)
def test_it_reports_a_wrong_receipt(
    pages: Pages, file: pathlib.Path, change: dict[str, object]
) -> None:
    first = "/receipts/1/1.json"
    wrong = {**pages.pages[first], **change}
    own = receipts_of(Pages({COMMITMENT: pages.pages[COMMITMENT], first: wrong}), file)
    words = printed(lambda: own.await_one(SHEETS[0]))
    assert "this is not a receipt of sheet 1 of round 1" in words


# ---- Refusals of late sheets

REFUSED = "/receipts/refused.json"


def refusal(two: ReceiptsAuction, number: int, change: dict[str, object] = {}) -> dict[str, Any]:
    """What the service signs for a late sheet of X, with a change that it did not sign."""
    signer = two.signer()
    digest = signer.sheets.setup.digest
    one = Refusal(digest, "X", "", number, f"2026-11-30T13:00:0{number}Z")
    page: dict[str, Any] = json.loads(one.page(signer.key.sign(one.message())))
    return {**page, **change}


def test_it_stores_the_refusal_of_a_late_sheet(
    two: ReceiptsAuction, own: bidder.Receipts, pages: Pages, file: pathlib.Path
) -> None:
    pages.pages[REFUSED] = refusal(two, 1)
    assert printed(own.await_refusal) == "refusal 1 is signed, of 2026-11-30T13:00:01Z\n"
    kept = read_kept(file)
    assert [one.refusal.number for one in kept.refusals] == [1]
    assert two.check(file)[0] == 0


def test_it_waits_for_a_refusal_with_a_new_number(
    two: ReceiptsAuction, own: bidder.Receipts, pages: Pages, file: pathlib.Path
) -> None:
    """The one that is there is of an earlier sheet."""
    pages.pages[REFUSED] = refusal(two, 1)
    printed(own.await_refusal)
    assert printed(own.await_refusal) == "no signed refusal within 0.3 s: call the operator\n"
    again = receipts_of(pages, file)
    assert again.refused == 1
    pages.pages[REFUSED] = refusal(two, 2)
    assert "refusal 2 is signed" in printed(again.await_refusal)
    assert len(read_kept(file).refusals) == 2


def test_a_refusal_of_before_it_began_is_stored_too(
    two: ReceiptsAuction, pages: Pages, file: pathlib.Path
) -> None:
    pages.pages[REFUSED] = refusal(two, 3)
    assert "refusal 3 is signed" in printed(lambda: receipts_of(pages, file))
    assert len(read_kept(file).refusals) == 1


@pytest.mark.parametrize(
    "change",
    [
        {"time": "2026-11-30T13:00:09Z"},
        {"number": 9},
        {"by": "eve"},
        {"bidder": "Y"},
        {"auction": "0" * 64},
        {"signature": "x"},
    ],
    ids=["time", "number", "person", "bidder", "auction", "signature"],
)
def test_it_reports_a_wrong_refusal_and_does_not_store_it(
    two: ReceiptsAuction,
    own: bidder.Receipts,
    pages: Pages,
    file: pathlib.Path,
    change: dict[str, object],
) -> None:
    pages.pages[REFUSED] = refusal(two, 1, change)
    assert "this is not a refusal of a sheet of X" in printed(own.await_refusal)
    assert not read_kept(file).refusals


def test_it_stores_nothing_that_would_make_its_file_none(
    two: ReceiptsAuction, pages: Pages, file: pathlib.Path
) -> None:
    """The operator adds a part that no signature covers."""
    more = {"more": 1, "mock": "no"}
    pages.pages["/receipts/1/1.json"].update(more)
    pages.pages[REFUSED] = refusal(two, 1, more)
    own = receipts_of(pages, file)
    own.note(bidder.text_of(SHEETS[0]))
    printed(lambda: own.await_one(SHEETS[0]))
    kept = read_kept(file)
    assert (len(kept.receipts), len(kept.refusals)) == (1, 1)


class Reply(io.BytesIO):
    """A reply of the server or of nginx."""

    def __init__(self, status: int, page: dict[str, Any]) -> None:
        super().__init__(json.dumps(page).encode())
        self.status, self.reason = status, ""


class Opener:
    """Answers each sheet with the next reply, or raises it if it is an exception.

    Whatever else is asked for is not there.
    """

    def __init__(self, *replies: Reply | Exception) -> None:
        self.replies = list(replies)

    def open(self, request: object, timeout: float) -> Reply:
        if not isinstance(request, urllib.request.Request):
            raise OSError("no page")
        reply = self.replies.pop(0)
        if isinstance(reply, Exception):
            raise reply
        return reply


WINDOW = (409, {"code": "window"})
TAKEN = (200, {"accepted": True, "bids": 1, "round": 1})
ATTEMPTS: dict[str, tuple[list[Any], int]] = {
    "taken-at-once": ([TAKEN], 1),
    "after-two-closed-windows": ([WINDOW, WINDOW, TAKEN], 1),
    "after-a-lost-reply": ([OSError("lost"), TAKEN], 2),
    "after-a-closed-window-and-a-lost-reply": ([WINDOW, OSError("lost"), TAKEN], 2),
}


@pytest.mark.parametrize(("replies", "wanted"), ATTEMPTS.values(), ids=ATTEMPTS)
def test_it_stores_each_sheet_that_may_have_been_taken(
    pages: Pages, file: pathlib.Path, replies: list[Any], wanted: int
) -> None:
    """A sheet that no window took counts for none. One whose reply is lost may count for one."""
    auction = bidder.Auction("http://127.0.0.1:1", "X" * 16, 0.001)
    auction.receipts = receipts_of(pages, file)
    made = [one if isinstance(one, Exception) else Reply(*one) for one in replies]
    auction.opener = Opener(*made)
    words = printed(lambda: auction.ask("/v1/me/bids", bidder.ACCEPTED, SHEETS[0]))
    assert file.read_text().count('{"sent": ') == wanted
    is_late = WINDOW in replies
    assert words.count("no signed refusal within 0.3 s") == is_late, "once for each wait"


# ---- Commitments and seeds


def test_without_a_commitment_it_says_that_there_are_no_receipts(file: pathlib.Path) -> None:
    words = printed(lambda: receipts_of(Pages({}), file).await_one(SHEETS[0]))
    assert words == "no commitment is published, so sheets have no receipts\n"


def test_another_commitment_ends_it(
    pages: Pages, file: pathlib.Path, commitment: dict[str, Any]
) -> None:
    receipts_of(pages, file)
    with pytest.raises(SystemExit, match="another commitment"):
        receipts_of(Pages({COMMITMENT: {**commitment, "key": "another"}}), file)


@pytest.mark.parametrize(
    ("number", "seed", "is_right"),
    [
        *((1, "1", True), (2, "2", True), (2, "1", False), (1, "3", False)),
        *((3, "0" * 64, False), (3, "x", False)),
    ],
    ids=["1", "2", "1-for-2", "3-for-1", "zeros", "no-seed"],
)
def test_it_reports_a_seed_that_is_not_the_committed_one(
    two: ReceiptsAuction, pages: Pages, file: pathlib.Path, number: int, seed: str, is_right: bool
) -> None:
    """A seed of one letter is that of a round."""
    if seed.isdigit() and len(seed) == 1:
        chain = Chain.read(two.kept / "chain.json", Setup.read(two.setup_file))
        seed = (chain.seed(int(seed)) or b"").hex()
    pages.pages[f"/public/rounds/{number}.json"] = {"seed": seed}
    own = receipts_of(pages, file)
    words = printed(lambda: own.check_seed(number))
    assert words == "" if is_right else f"the seed of round {number} is not" in words


def test_it_says_nothing_of_a_seed_that_is_not_published(pages: Pages, file: pathlib.Path) -> None:
    own = receipts_of(pages, file)
    assert printed(lambda: own.check_seed(4)) == ""
