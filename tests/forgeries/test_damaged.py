"""Damaged files: a journal that is truncated, changed, too long, or refused by the rules."""
import pathlib
import random
from collections.abc import Callable

import pytest

from auction.verify.case import Case
from tests.forgeries.auction import LAST, WitnessedAuction, failing, place_of
from tests.lib.journals import Wrong, journal_of, texts_of

FAULTS = 60


def with_fault(chance: random.Random, journal: bytes) -> bytes:
    """A journal that is truncated, or has a changed bit, or has more bytes at its end."""
    place, kind = chance.randrange(len(journal)), chance.randrange(3)
    if kind == 0:
        return journal[:place]
    if kind == 1:
        return journal + chance.randbytes(chance.randint(1, 60))
    bit = 1 << chance.randrange(8)
    return journal[:place] + bytes([journal[place] ^ bit]) + journal[place + 1 :]


@pytest.mark.parametrize("seed", range(FAULTS))
def test_a_journal_with_a_fault_fails(honest: WitnessedAuction, seed: int) -> None:
    journal = with_fault(random.Random(seed), honest.journal_file.read_bytes())
    assert {"journal", "digests"} & honest.failed(journal).keys()


def test_zeros_at_the_end_of_a_journal_fail(honest: WitnessedAuction) -> None:
    assert list(honest.failed(honest.journal_file.read_bytes() + bytes(7))) == ["journal"]


DAMAGED: dict[str, Callable[[bytes], bytes]] = {
    "a-byte-missing": lambda journal: journal[:-1],
    "zeros-added": lambda journal: journal + bytes(7),
    "a-byte-changed": lambda journal: journal[:-1] + b"!",
}


@pytest.mark.parametrize("damage", DAMAGED.values(), ids=DAMAGED)
def test_the_reader_of_the_tests_finds_the_damage(
    honest: WitnessedAuction, damage: Callable[[bytes], bytes]
) -> None:
    with pytest.raises(Wrong, match="at byte"):
        texts_of(honest.document, damage(honest.journal_file.read_bytes()))


def test_a_sheet_that_the_rules_refuse_fails(honest: WitnessedAuction) -> None:
    """The price is above the clock price."""
    texts = honest.texts()
    place = place_of(texts, "X", LAST)
    texts[place] = texts[place].replace(b'"price":115', b'"price":122')
    failed = honest.failed(journal_of(honest.document, texts))
    assert "rules" in failed
    assert "journal" not in failed


@pytest.mark.parametrize("subject", ["set-up", "journal", "rules", "commitment"])
def test_a_set_up_document_that_is_not_valid_fails(
    honest: WitnessedAuction, tmp_path: pathlib.Path, subject: str
) -> None:
    """An activity requirement of 30 percent is too low."""
    other = tmp_path / "other.json"
    other.write_bytes(honest.document.replace(b'"requirement": 50', b'"requirement": 30'))
    assert other.read_bytes() != honest.document
    assert subject in failing(Case(other, honest.journal_file, honest.saved))
