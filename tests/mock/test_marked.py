"""What is signed in a mock auction says so itself, and proves nothing of a real one."""
import dataclasses
import json
import pathlib
import shutil
from collections.abc import Callable
from typing import Any

import pytest

from auction.formats import notices
from auction.formats.receipts import File, Kept, KeptRefusal, Receipt, Refusal, faults, file_of
from auction.formats.setup import Setup
from auction.formats.signatures import sign
from auction.formats.ties import Commitment
from auction.receipts import Refusals
from examples import bidder
from tests.lib.journals import journal_of
from tests.lib.paths import auction
from tests.mock.conftest import Pair

pytestmark = pytest.mark.early

BODY = b'{"bids":[],"round":1}'
KINDS = pytest.mark.parametrize("is_mock", [False, True], ids=["real", "mock"])
WORDS = {False: "a real auction", True: "a mock auction"}
TITLES = {False: b"clock_auction ", True: b"clock_auction mock "}


class Side:
    """One of the two auctions, with a sheet of X and a refused one."""

    def __init__(self, folder: pathlib.Path, is_mock: bool) -> None:
        self.folder, self.is_mock = folder, is_mock
        self.setup = Setup.read(folder / "setup.json")
        self.commitment = Commitment.read(folder / "public/commitment.json")
        self.secret = (folder / "kept/receipts.pem").read_bytes()

    @property
    def request(self) -> bytes:
        token = next(token for token, name in self.setup.tokens.items() if name == "X")
        head = f"PUT /v1/me/bids HTTP/1.1\r\nauthorization: Bearer {token}\r\n"
        return f"{head}content-length: {len(BODY)}\r\n\r\n".encode() + BODY

    @property
    def journal(self) -> bytes:
        return journal_of(self.setup.document, [self.request])

    def receipt(self) -> Receipt:
        return Receipt.of(self.setup.digest, "X", 1, 1, self.request)

    def refusal(self, folder: pathlib.Path) -> Refusal:
        """What the service makes of a line of nginx's log."""
        log = folder / "refused.log"
        log.write_bytes(b'{"bidder":"X","by":"","second":"1796043600"}\n')
        [found] = Refusals(log, self.setup).read_on()
        return found

    def page(self, one: Receipt | Refusal) -> dict[str, Any]:
        """The signed page."""
        value: dict[str, Any] = json.loads(one.page(sign(self.secret, one.message())))
        return value

    def file(self, *pages: dict[str, Any]) -> File:
        """X's file with these pages. It says what X sent."""
        return file_of(self.commitment, [{"bidder": "X"}, {"sent": BODY.decode()}, *pages])


def sides(pair: Pair, is_mock: bool) -> tuple[Side, Side]:
    """The auction of this kind, and the other one."""
    real, mock = Side(pair.real, False), Side(pair.mock, True)
    return (mock, real) if is_mock else (real, mock)


@KINDS
def test_receipts_and_refusals_say_of_which_kind_they_are(
    made: Pair, is_mock: bool, tmp_path: pathlib.Path
) -> None:
    side, _ = sides(made, is_mock)
    for one in (side.receipt(), side.refusal(tmp_path)):
        page = side.page(one)
        assert page.get("mock") is (True if is_mock else None)
        form = b"receipt 2\n" if isinstance(one, Receipt) else b"refusal 1\n"
        assert one.message().startswith(TITLES[is_mock] + form)
    pages = side.page(side.receipt()), side.page(side.refusal(tmp_path))
    assert faults(side.file(*pages), side.journal, "", side.commitment) == []


@KINDS
def test_a_receipt_of_the_other_kind_is_named(made: Pair, is_mock: bool) -> None:
    """It comes in a file that begins with the right commitment, next to the right journal."""
    side, other = sides(made, is_mock)
    file = side.file(other.page(other.receipt()))
    found = " ".join(faults(file, side.journal, "", side.commitment))
    assert (
        f"the receipt is of {WORDS[not is_mock]}, and the commitment of {WORDS[is_mock]}" in found
    )


@KINDS
def test_a_refusal_of_the_other_kind_is_named(
    made: Pair, is_mock: bool, tmp_path: pathlib.Path
) -> None:
    side, other = sides(made, is_mock)
    file = side.file(side.page(side.receipt()), other.page(other.refusal(tmp_path)))
    words = f"refusal 1 is of {WORDS[not is_mock]}, and the commitment of {WORDS[is_mock]}"
    assert faults(file, side.journal, "", side.commitment) == [words]


def with_other_mark(page: dict[str, Any]) -> dict[str, Any]:
    """The page with the mark, if it has none, or without it."""
    rest = {name: value for name, value in page.items() if name != "mock"}
    return rest if "mock" in page else {**rest, "mock": True}


@KINDS
def test_a_mark_is_signed(made: Pair, is_mock: bool) -> None:
    """Neither taken off nor added does it fit, also if the commitment is changed with it."""
    side, _ = sides(made, is_mock)
    changed = side.file(with_other_mark(side.page(side.receipt())))
    assert "and the commitment of" in " ".join(faults(changed, side.journal))
    other = dataclasses.replace(side.commitment, mock=not is_mock)
    found = " ".join(faults(changed._replace(commitment=other), side.journal))
    assert "not signed by the committed key" in found


@KINDS
def test_an_operator_marks_no_sheet_as_of_the_other_kind(made: Pair, is_mock: bool) -> None:
    """It signs the false mark with its own key: the receipt is refused all the same."""
    side, _ = sides(made, is_mock)
    false = side.page(dataclasses.replace(side.receipt(), mock=not is_mock))
    found = " ".join(faults(side.file(false), side.journal, "", side.commitment))
    assert f"the receipt is of {WORDS[not is_mock]}" in found


@pytest.mark.parametrize("mark", [False, None, 1, "true", [True]], ids=repr)
def test_another_mark_is_no_receipt(made: Pair, mark: object, tmp_path: pathlib.Path) -> None:
    side, _ = sides(made, True)
    readers: list[tuple[Callable[[Any], Any], Any]] = [
        (Kept.of, side.page(side.receipt())),
        (KeptRefusal.of, side.page(side.refusal(tmp_path))),
    ]
    for read, page in readers:
        with pytest.raises(ValueError, match="its keys must be"):
            read({**page, "mock": mark})


@KINDS
def test_check_receipts_says_that_it_is_of_a_mock(
    made: Pair, is_mock: bool, tmp_path: pathlib.Path
) -> None:
    side, other = sides(made, is_mock)
    lines = [side.commitment.value(), {"bidder": "X"}, {"sent": BODY.decode()}]
    lines.append(side.page(side.receipt()))
    text = "".join(json.dumps(line) + "\n" for line in lines)
    (tmp_path / "receipts.jsonl").write_text(text)
    (tmp_path / "journal").write_bytes(side.journal)
    words = [
        *("check-receipts", tmp_path / "receipts.jsonl", tmp_path / "journal"),
        *("--setup", side.folder / "setup.json", "--commitment"),
    ]
    done = auction(*words, side.folder / "public/commitment.json")
    assert done.returncode == 0, done.stderr
    assert done.stdout.startswith("Mock auction: nothing is sold.\n") is is_mock
    (tmp_path / "journal").write_bytes(other.journal)
    words[-2] = other.folder / "setup.json"
    done = auction(*words, other.folder / "public/commitment.json")
    assert done.returncode == 1
    assert f"the receipt is of {WORDS[is_mock]}, and the commitment of" in done.stdout


class Stub:
    """The pages that a bidder's program asks for."""

    def __init__(self, commitment: Any, receipt: Any) -> None:
        self.pages = {"/public/commitment.json": commitment, "/receipts/1/1.json": receipt}

    def ask(self, path: str, shape: object, may_lack: bool = False) -> Any:
        return self.pages.get(path)


@KINDS
def test_a_bidders_program_names_the_kind_and_takes_no_other(
    made: Pair, is_mock: bool, tmp_path: pathlib.Path, capsys: pytest.CaptureFixture[str]
) -> None:
    side, _ = sides(made, is_mock)
    sheet = json.loads(BODY)
    for name, one in (
        ("right", side.receipt()),
        ("false", dataclasses.replace(side.receipt(), mock=not is_mock)),
    ):
        body = bidder.digest_of(bidder.text_of(sheet))
        page = side.page(dataclasses.replace(one, body=body))
        stub = Stub(side.commitment.value(), page)
        own = bidder.Receipts(stub, tmp_path / f"{name}.jsonl", "X")
        own.note(bidder.text_of(sheet))
        if name == "right":
            own.await_one(sheet)
            kind = ", of the mock auction" if is_mock else ""
            assert capsys.readouterr().out == f"receipt of sheet 1 of round 1{kind}\n"
        else:
            own.take(1)
            assert "this is not a receipt of sheet 1 of round 1" in capsys.readouterr().err
            assert "signature" not in (tmp_path / f"{name}.jsonl").read_text()


# ---- Notices


def announced(pair: Pair) -> None:
    """Both operators announce the same words."""
    for folder in pair:
        done = auction("announce", folder, "The", "words.")
        assert done.returncode == 0, done.stderr


def verified(folder: pathlib.Path) -> str:
    """What `auction verify` says of a folder whose journal has no request yet."""
    document = (folder / "setup.json").read_bytes()
    (folder / "journal").write_bytes(journal_of(document, []))
    return auction("verify", folder / "setup.json", folder / "journal", folder / "public").stdout


@KINDS
def test_notices_of_the_other_kind_are_named(pair: Pair, is_mock: bool) -> None:
    announced(pair)
    folder, other = (pair.mock, pair.real) if is_mock else (pair.real, pair.mock)
    assert "FAILED notices" not in verified(folder)
    shutil.copy(other / "public" / notices.NAME, folder / "public" / notices.NAME)
    said = verified(folder)
    kinds = f"line 1: it is of {WORDS[not is_mock]}, and the commitment is of {WORDS[is_mock]}"
    assert any(line.startswith("FAILED notices") and kinds in line for line in said.splitlines())


@KINDS
def test_each_notice_has_its_mark_signed(pair: Pair, is_mock: bool) -> None:
    announced(pair)
    public = (pair.mock if is_mock else pair.real) / "public"
    commitment = (public / "commitment.json").read_bytes()
    lines = notices.lines_of((public / notices.NAME).read_bytes())
    assert lines and all((b'"mock":true' in line) is is_mock for line in lines)
    changed = notices.canonical(with_other_mark(json.loads(lines[0])))
    with pytest.raises(notices.NoticesFault, match="line 1: it is of a"):
        notices.notices_in(changed, commitment)
    other = Commitment.of(json.loads(commitment))
    with pytest.raises(notices.NoticesFault, match="it is not signed by the committed key"):
        before = notices.digest_of(commitment)
        notices.checked_entry(changed, 1, before, dataclasses.replace(other, mock=not is_mock))
