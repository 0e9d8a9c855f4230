"""What is of a mock auction opens nothing in a real one, and the reverse. Each refusal says so."""
import json
import pathlib
import shutil

import pytest

from auction.formats.receipts import Kept, Receipt, faults, file_of
from auction.formats.setup import Setup
from auction.formats.signatures import sign
from auction.formats.ties import Commitment
from tests.lib.journals import journal_of
from tests.lib.paths import auction
from tests.mock.conftest import SETUP, WORKER, Pair

pytestmark = pytest.mark.early

NAMED = "mock auction"


def init(folder: pathlib.Path, *words: object) -> str:
    """The words with which `auction init` refuses, or nothing."""
    done = auction("init", folder, "--user", WORKER, *words)
    assert (done.returncode == 0) == folder.exists()
    return "" if done.returncode == 0 else done.stderr


def test_a_real_folder_is_not_made_of_a_mocks_set_up(made: Pair, tmp_path: pathlib.Path) -> None:
    assert NAMED in init(tmp_path / "new", "--setup", made.mock / "setup.json")


def test_a_real_folder_is_not_made_with_one_token_of_a_mock(
    made: Pair, tmp_path: pathlib.Path
) -> None:
    value = json.loads((made.real / "setup.json").read_text())
    mocks = json.loads((made.mock / "setup.json").read_text())
    value["bidders"][1]["token"] = mocks["bidders"][1]["token"]
    (tmp_path / "mixed.json").write_text(json.dumps(value))
    assert NAMED in init(tmp_path / "new", "--setup", tmp_path / "mixed.json")


def test_a_mock_of_a_mock_has_fresh_tokens(made: Pair, tmp_path: pathlib.Path) -> None:
    assert not init(tmp_path / "new", "--mock", "--setup", made.mock / "setup.json")
    before, after = (
        {one["token"] for one in json.loads((folder / "setup.json").read_text())["bidders"]}
        for folder in (made.mock, tmp_path / "new")
    )
    assert not before & after


def test_no_real_token_is_anywhere_in_the_mocks_folder(made: Pair) -> None:
    value = json.loads(SETUP.read_text())
    tokens = [value["operator"], *(one["token"] for one in value["bidders"])]
    files = [path for path in made.mock.rglob("*") if path.is_file()]
    assert files
    found = [
        path.name for path in files if any(token.encode() in path.read_bytes() for token in tokens)
    ]
    assert found == []


COMMANDS = (
    ("status", "FOLDER"),
    ("announce", "FOLDER", "words"),
    ("pause", "FOLDER", "words"),
    ("run", "FOLDER"),
    ("commit", "FOLDER/setup.json", "FOLDER/kept", "FOLDER/public"),
)


@pytest.mark.parametrize("is_mock", [False, True], ids=["real", "mock"])
@pytest.mark.parametrize("words", COMMANDS, ids=[words[0] for words in COMMANDS])
def test_a_folder_with_the_other_set_up_is_refused(
    pair: Pair, words: tuple[str, ...], is_mock: bool
) -> None:
    folder, other = (pair.mock, pair.real) if is_mock else (pair.real, pair.mock)
    shutil.copy(other / "setup.json", folder / "setup.json")
    done = auction(*(word.replace("FOLDER", str(folder)) for word in words))
    assert done.returncode == 1 and NAMED in done.stderr, done.stderr
    assert not (folder / "public/announcements.json").exists()


@pytest.mark.parametrize("is_mock", [False, True], ids=["real", "mock"])
def test_a_folder_of_its_own_set_up_announces(pair: Pair, is_mock: bool) -> None:
    """The refusals above are not of another cause. A mock's announcement says so."""
    folder = pair.mock if is_mock else pair.real
    done = auction("announce", folder, "The", "words.")
    mark = "Mock auction. " if is_mock else ""
    assert done.stdout == f"announcement 1: {mark}The words.\n", done.stderr
    timetable = json.loads((folder / "public/timetable.json").read_text())
    assert timetable.get("mock", False) is is_mock


def test_a_mocks_letter_says_so_and_has_its_token_only(made: Pair) -> None:
    bidders = json.loads((made.mock / "setup.json").read_text())["bidders"]
    for one in bidders:
        text = (made.mock / "letters" / f"{one['name']}.txt").read_text()
        assert text.startswith("Mock auction. ")
        assert [each["token"] for each in bidders if each["token"] in text] == [one["token"]]
    assert not (made.real / "letters").exists()


# ---- Receipts


def commitment_in(folder: pathlib.Path) -> Commitment:
    return Commitment.read(folder / "public/commitment.json")


def request(folder: pathlib.Path) -> bytes:
    """A sheet of X, as the server has it."""
    token = json.loads((folder / "setup.json").read_text())["bidders"][0]["token"]
    body = b'{"bids":[],"round":1}'
    head = f"PUT /v1/me/bids HTTP/1.1\r\nauthorization: Bearer {token}\r\n"
    return f"{head}content-length: {len(body)}\r\n\r\n".encode() + body


def journal(folder: pathlib.Path) -> bytes:
    """A journal with X's sheet."""
    return journal_of((folder / "setup.json").read_bytes(), [request(folder)])


def kept(folder: pathlib.Path) -> Kept:
    """The receipt of X's sheet."""
    receipt = Receipt.of(Setup.read(folder / "setup.json").digest, "X", 1, 1, request(folder))
    secret = (folder / "kept/receipts.pem").read_bytes()
    return Kept(receipt, sign(secret, receipt.message()), '{"bids":[],"round":1}')


@pytest.mark.parametrize("is_mock", [False, True], ids=["real", "mock"])
def test_no_key_signs_for_the_other_auction(pair: Pair, is_mock: bool) -> None:
    """Set-up and journal fit, and only the folder of the key is another auction's."""
    folder, other = (pair.mock, pair.real) if is_mock else (pair.real, pair.mock)
    (folder / "journal").write_bytes(journal(folder))
    words = "receipts", folder / "setup.json", folder / "journal"
    done = auction(*words, other / "kept", folder / "receipts", "--once")
    assert done.returncode == 1 and done.stdout == ""
    assert "kept/receipts.pem is of another set-up" in done.stderr
    assert list((folder / "receipts").iterdir()) == []
    done = auction(*words, folder / "kept", folder / "receipts", "--once")
    assert (done.returncode, done.stdout) == (0, "receipts 1\n"), done.stderr
    page = json.loads((folder / "receipts/X/1-1.json").read_text())
    assert page.get("mock", False) is is_mock


@pytest.mark.parametrize("is_mock", [False, True], ids=["real", "mock"])
def test_receipts_are_of_their_own_journal(made: Pair, is_mock: bool) -> None:
    folder = made.mock if is_mock else made.real
    commitment = commitment_in(folder)
    file = file_of(commitment, [])._replace(receipts=[kept(folder)])
    assert faults(file, journal(folder), "", commitment) == []


@pytest.mark.parametrize("is_mock", [False, True], ids=["real", "mock"])
def test_receipts_of_the_other_kind_are_named(made: Pair, is_mock: bool) -> None:
    """The file of one auction, with journal and commitment of the other."""
    folder, other = (made.mock, made.real) if is_mock else (made.real, made.mock)
    file = file_of(commitment_in(other), [])._replace(receipts=[kept(other)])
    found = " ".join(faults(file, journal(folder), "", commitment_in(folder)))
    assert "of another auction" in found and NAMED in found


@pytest.mark.parametrize("is_mock", [False, True], ids=["real", "mock"])
def test_a_journal_of_the_other_kind_is_named(made: Pair, is_mock: bool) -> None:
    folder, other = (made.mock, made.real) if is_mock else (made.real, made.mock)
    file = file_of(commitment_in(folder), [])._replace(receipts=[kept(folder)])
    found = " ".join(faults(file, journal(other), "", commitment_in(folder)))
    assert "the journal is of another auction" in found and NAMED in found
