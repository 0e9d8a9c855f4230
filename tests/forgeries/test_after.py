"""Forgeries of a journal whose digests are published. All its digests are made again."""
import pathlib
import shutil
import subprocess
from collections.abc import Callable

import pytest

from auction.recount import rules
from auction.verify.auction import page_of
from tests.forgeries.auction import BIDDERS, LAST, WitnessedAuction, place_of, with_json
from tests.lib.journals import journal_of, texts_of

Texts = list[bytes]


def changed(texts: Texts) -> Texts:
    """Changes X's price from 115 to 112. Its reduction is then applied, and everyone pays less."""
    place = place_of(texts, "X", LAST)
    assert texts[place].count(b'"price":115') == 1
    text = texts[place].replace(b'"price":115', b'"price":112')
    return [*texts[:place], text, *texts[place + 1 :]]


def left_out(texts: Texts) -> Texts:
    """Leaves out the sheet of Y in round 2 that its next one replaced."""
    place = place_of(texts, "Y", 2)
    return texts[:place] + texts[place + 1 :]


def added(texts: Texts) -> Texts:
    """Adds the last sheet of Y again, in the name of Z: Z asks to give up its block."""
    place = place_of(texts, "Y", LAST)
    text = texts[place].replace(b"Y" * 16, b"Z" * 16)
    return [*texts[: place + 1], text, *texts[place + 1 :]]


def cut_off(texts: Texts) -> Texts:
    """Cuts off the last closing."""
    return texts[:-1]


FORGERIES: dict[str, tuple[Callable[[Texts], Texts], str]] = {
    "a-bid-changed": (changed, "X"),
    "a-sheet-left-out": (left_out, "Y"),
    "a-sheet-added": (added, "Z"),
    "the-last-closing-cut-off": (cut_off, ""),
}
WITH_VICTIM = {name: row for name, row in FORGERIES.items() if row[1]}


def forged(honest: WitnessedAuction, forge: Callable[[Texts], Texts]) -> bytes:
    """A forged journal, with all its digests made again."""
    return journal_of(honest.document, forge(honest.texts()))


def audit_of(honest: WitnessedAuction, folder: pathlib.Path, journal: bytes) -> str:
    """What the program prints of a journal, which it accepts."""
    path = folder / "audited.journal"
    path.write_bytes(journal)
    words: list[str | pathlib.Path] = [honest.program, "audit"]
    words += ["--setup", honest.setup_file, "--journal", path]
    return subprocess.run(words, capture_output=True, text=True, check=True, timeout=60).stdout


# ---- An auction that nobody forged


def test_an_honest_auction_verifies_by_what_a_witness_saved(honest: WitnessedAuction) -> None:
    assert honest.shown(receipts=BIDDERS) == {}


def test_an_honest_auction_verifies_as_it_was_published(honest: WitnessedAuction) -> None:
    assert honest.failed(published=honest.public) == {}


# ---- Forged journals


@pytest.mark.parametrize(("forge", "victim"), FORGERIES.values(), ids=FORGERIES)
def test_the_program_accepts_a_forged_journal(
    honest: WitnessedAuction, tmp_path: pathlib.Path, forge: Callable[[Texts], Texts], victim: str
) -> None:
    journal = forged(honest, forge)
    assert journal != honest.journal_file.read_bytes()
    assert audit_of(honest, tmp_path, journal)


@pytest.mark.parametrize(("forge", "victim"), FORGERIES.values(), ids=FORGERIES)
def test_a_forged_journal_looks_whole(
    honest: WitnessedAuction, forge: Callable[[Texts], Texts], victim: str
) -> None:
    found = texts_of(honest.document, forged(honest, forge))
    assert [text for text, _ in found] == forge(honest.texts())


@pytest.mark.parametrize(("forge", "victim"), FORGERIES.values(), ids=FORGERIES)
def test_published_digests_show_a_forged_journal(
    honest: WitnessedAuction, forge: Callable[[Texts], Texts], victim: str
) -> None:
    failed = honest.shown(forged(honest, forge), receipts=victim)
    assert "digests" in failed
    assert "journal" not in failed


@pytest.mark.parametrize(("forge", "victim"), WITH_VICTIM.values(), ids=WITH_VICTIM)
def test_the_victim_s_receipts_show_a_forged_journal(
    honest: WitnessedAuction, forge: Callable[[Texts], Texts], victim: str
) -> None:
    assert "receipts" in honest.failed(forged(honest, forge), receipts=victim)


def test_a_changed_bid_changes_what_is_paid(
    honest: WitnessedAuction, tmp_path: pathlib.Path
) -> None:
    true = audit_of(honest, tmp_path, honest.journal_file.read_bytes())
    assert audit_of(honest, tmp_path, forged(honest, changed)) != true


# ---- Everything published again by the forged journal


@pytest.fixture
def rewritten(honest: WitnessedAuction, tmp_path: pathlib.Path) -> pathlib.Path:
    """Published digests and results, by the journal with a changed bid."""
    folder = tmp_path / "rewritten"
    shutil.copytree(honest.public, folder)
    counted = rules.recounted(honest.document, forged(honest, changed))
    rounds = zip(counted.auction.rounds, counted.closings)
    for number, (closed, digest) in enumerate(rounds, 1):
        page = page_of(["A"], [3], number, closed)
        with_json(folder / f"rounds/{number}.json", **page, digest=digest)
    return folder


def test_what_is_published_does_not_show_a_forgery_that_is_published_again(
    honest: WitnessedAuction, rewritten: pathlib.Path
) -> None:
    assert honest.failed(forged(honest, changed), rewritten) == {}


def test_only_receipts_show_a_forgery_that_is_published_again(
    honest: WitnessedAuction, rewritten: pathlib.Path
) -> None:
    assert list(honest.shown(forged(honest, changed), rewritten, "X")) == ["receipts"]
