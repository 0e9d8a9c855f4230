"""An auction with a public draw, whose result is added to the commitment of before."""
import json
import pathlib
import shutil
import subprocess
from collections.abc import Callable, Iterator

import pytest

from auction.verify.case import Case
from auction.verify.findings import ABSENT, OK, findings
from examples import bidder
from tests.forgeries.auction import BIDDERS, LAST, WitnessedAuction, failing, with_json

DRAW = "5 17 33"


@pytest.fixture(scope="module")
def drawn(
    program: pathlib.Path, tmp_path_factory: pytest.TempPathFactory
) -> Iterator[WitnessedAuction]:
    """An auction with a draw that has ended.

    The witness and all bidders saved the commitment before the draw.
    """
    with WitnessedAuction(program, tmp_path_factory.mktemp("drawn")) as auction:
        words = [auction.setup_file, auction.kept, auction.public]
        auction.succeed("commit", *words, "--draw", DRAW)
        auction.witness("draw.json")
        auction.play(LAST)
    yield auction


@pytest.fixture(scope="module")
def record(drawn: WitnessedAuction, tmp_path_factory: pytest.TempPathFactory) -> pathlib.Path:
    folder = tmp_path_factory.mktemp("drawn-record") / "record"
    drawn.succeed("record", drawn.setup_file, drawn.journal_file, drawn.public, folder)
    return folder


@pytest.fixture
def saved(drawn: WitnessedAuction, tmp_path: pathlib.Path) -> pathlib.Path:
    """A copy of what the witness saved, to change."""
    return shutil.copytree(drawn.saved, tmp_path / "saved")


def words_of(case: Case, subject: str) -> tuple[str, str]:
    """The result and the words of a check."""
    found = next(one for one in findings(case) if one.subject == subject)
    return found.result, found.words


# ---- Nobody forged it


def test_it_verifies_by_what_a_witness_saved_before_and_after_the_draw(
    drawn: WitnessedAuction,
) -> None:
    assert drawn.shown(receipts=BIDDERS) == {}


def test_it_verifies_as_it_was_published(drawn: WitnessedAuction) -> None:
    assert drawn.shown(published=drawn.public, receipts=BIDDERS) == {}


def test_its_record_verifies(drawn: WitnessedAuction, record: pathlib.Path) -> None:
    assert drawn.shown(published=record, receipts=BIDDERS) == {}


def test_its_record_has_every_file_of_the_witness(
    drawn: WitnessedAuction, record: pathlib.Path
) -> None:
    files = [path for path in drawn.saved.rglob("*.json")]
    names = [str(path.relative_to(drawn.saved)) for path in files]
    assert {"commitment.json", "draw.json"} < set(names)
    assert [(record / name).read_bytes() for name in names] == [path.read_bytes() for path in files]


@pytest.mark.parametrize("name", BIDDERS)
def test_its_receipts_fit_by_the_commitment_of_before_the_draw(
    drawn: WitnessedAuction, name: str
) -> None:
    copy = "--commitment", drawn.saved / "commitment.json"
    done = drawn.run("check-receipts", drawn.folder / f"{name}.jsonl", drawn.journal_file, *copy)
    assert (done.returncode, done.stderr) == (0, "")


class Pages:
    """The published pages, as a bidder sees them."""

    def __init__(self, folder: pathlib.Path) -> None:
        self.folder = folder

    def ask(self, path: str, shape: object, may_lack: bool) -> object:
        file = self.folder / path.removeprefix("/public/")
        return json.loads(file.read_text()) if file.exists() else None


def test_a_bidder_s_program_that_began_before_the_draw_goes_on_after_it(
    program: pathlib.Path, tmp_path: pathlib.Path
) -> None:
    with WitnessedAuction(program, tmp_path / "auction") as auction:
        file = tmp_path / "receipts.jsonl"
        before = bidder.Receipts(Pages(auction.public), file, "X")
        words = [auction.setup_file, auction.kept, auction.public]
        auction.succeed("commit", *words, "--draw", DRAW)
        assert bidder.Receipts(Pages(auction.public), file, "X").commitment == before.commitment


@pytest.mark.needs("openssl")
def test_its_numbers_depend_on_the_draw(drawn: WitnessedAuction) -> None:
    """The first number of round 2 by openssl."""
    seed = json.loads((drawn.saved / "rounds/2.json").read_text())["seed"]
    words = ["openssl", "dgst", "-sha256", "-mac", "HMAC", "-r", "-macopt", f"hexkey:{seed}"]
    message = f"2 0 0 {DRAW}".encode()
    done = subprocess.run(words, input=message, capture_output=True, check=True)
    closing = json.loads((drawn.kept / "closings.jsonl").read_text().splitlines()[1])
    assert closing["ties"][0] == [0, 0, int(done.stdout[:12], 16)]


# ---- Whose copy of the commitment


def case_of(
    drawn: WitnessedAuction, published: pathlib.Path, commitment: pathlib.Path | None = None
) -> Case:
    return Case(drawn.setup_file, drawn.journal_file, published, commitment=commitment)


def test_it_says_whose_copy_the_draw_was_added_to(drawn: WitnessedAuction) -> None:
    result, words = words_of(case_of(drawn, drawn.saved), "draw")
    assert result == OK
    assert words.startswith(f"'{DRAW}' was added to {drawn.saved}/commitment.json")


def test_the_record_s_own_commitment_does_not_prove_that_it_was_before_the_draw(
    drawn: WitnessedAuction, record: pathlib.Path
) -> None:
    result, words = words_of(case_of(drawn, record), "draw")
    assert result == ABSENT
    assert "give --commitment" in words


def test_a_saved_copy_proves_it_for_a_record(drawn: WitnessedAuction, record: pathlib.Path) -> None:
    copy = drawn.saved / "commitment.json"
    result, words = words_of(case_of(drawn, record, copy), "draw")
    assert (result, str(copy) in words) == (OK, True)


# ---- Forgeries


def drawn_again(drawn: WitnessedAuction, folder: pathlib.Path) -> pathlib.Path:
    """What the operator publishes that waits for the draw, and then makes another chain."""
    public = folder / "public"
    words = [drawn.setup_file, folder / "kept", public]
    drawn.succeed("commit", *words)
    drawn.succeed("commit", *words, "--draw", DRAW)
    return public


def test_a_commitment_of_after_the_draw_is_shown_by_a_copy_of_before(
    drawn: WitnessedAuction, tmp_path: pathlib.Path
) -> None:
    public = drawn_again(drawn, tmp_path)
    failed = failing(case_of(drawn, public, drawn.saved / "commitment.json"))
    assert "is another commitment than the one of" in failed["commitment"]
    assert "was added to the commitment" in failed["draw"]


def test_a_draw_of_another_commitment_is_shown(
    drawn: WitnessedAuction, saved: pathlib.Path, tmp_path: pathlib.Path
) -> None:
    shutil.copy(drawn_again(drawn, tmp_path) / "draw.json", saved / "draw.json")
    assert list(failing(case_of(drawn, saved))) == ["draw"]


def with_other_words(saved: pathlib.Path) -> None:
    file = saved / "draw.json"
    file.write_text(file.read_text().replace(DRAW, "5 17 34"))


def left_out(saved: pathlib.Path) -> None:
    (saved / "draw.json").unlink()


def in_the_commitment(saved: pathlib.Path) -> None:
    """The commitment has the draw, as if it had been published after it."""
    file = saved / "commitment.json"
    file.write_text(file.read_text().replace('"draw":""', f'"draw":"{DRAW}"'))


def spaced(saved: pathlib.Path) -> None:
    with_json(saved / "draw.json")


def twice(saved: pathlib.Path) -> None:
    file = saved / "draw.json"
    file.write_text(file.read_text().replace('"draw":', '"draw":"1 2 3","draw":'))


FORGERIES: dict[str, tuple[Callable[[pathlib.Path], None], str]] = {
    "other-words": (with_other_words, "ties"),
    "left-out": (left_out, "ties"),
    "in-the-commitment": (in_the_commitment, "commitment draw"),
    "with-spaces": (spaced, "ties draw"),
    "a-key-twice": (twice, "ties draw"),
}


@pytest.mark.parametrize(("forge", "checks"), FORGERIES.values(), ids=FORGERIES)
def test_a_changed_draw_is_shown(
    drawn: WitnessedAuction,
    saved: pathlib.Path,
    forge: Callable[[pathlib.Path], None],
    checks: str,
) -> None:
    forge(saved)
    assert list(failing(case_of(drawn, saved))) == checks.split()


def test_a_draw_that_was_added_after_the_end_is_shown(
    honest: WitnessedAuction, tmp_path: pathlib.Path
) -> None:
    """The auction had no draw."""
    saved = shutil.copytree(honest.saved, tmp_path / "saved")
    text = (saved / "commitment.json").read_bytes()
    draw = {"commitment": bidder.hashlib.sha256(text).hexdigest(), "draw": DRAW}
    (saved / "draw.json").write_text(json.dumps(draw, separators=(",", ":")) + "\n")
    assert list(honest.failed(published=saved)) == ["ties"]
