"""Tries to find an accepted sheet that is missing after the server was killed."""
import pathlib
from collections.abc import Callable
from random import Random

import pytest

from tests.lib import setups
from tests.lib.journals import journal_of, texts_of
from tests.lib.served import Served, bid

SEEDS = range(4)
STEPS = 12
NAMES = "XYZ"
Harm = Callable[[Served], None]


def no_harm(auction: Served) -> None:
    """A kill, and nothing else."""


def loses_the_last(auction: Served) -> None:
    """The last request is not on the disk."""
    texts = auction.texts()
    auction.journal_file.write_bytes(journal_of(auction.document, texts[:-1]))


def loses_another(auction: Served) -> None:
    """An earlier request is not on the disk."""
    texts = auction.texts()
    auction.journal_file.write_bytes(journal_of(auction.document, texts[1:]))


def loses_half_a_record(auction: Served) -> None:
    """The end of the last record is not on the disk."""
    auction.journal_file.write_bytes(auction.journal_file.read_bytes()[:-20])


def lost(program: pathlib.Path, folder: pathlib.Path, seed: int, harm: Harm) -> list[str]:
    """The bidders whose accepted sheet a server that was killed no longer has."""
    chance, sent = Random(seed), dict[str, object]()
    bidders = [setups.bidder(name, name * 16, 4) for name in NAMES]
    setup = setups.setup([setups.product("A", supply=3, cap=3)], bidders)
    with Served(program, folder, setup) as auction:
        for step in range(STEPS):
            name = NAMES[step] if step < len(NAMES) else chance.choice(NAMES)
            sheet = bid(chance.randint(1, 3))
            auction.put(name * 16, 1, sheet)
            sent[name] = [sheet]
            if step < len(NAMES) or chance.random() < 0.6:
                continue
            auction.server.kill()
            harm(auction)
            auction.restart()
            found = {each: auction.ask("GET /v1/me/bids", each * 16)["bids"] for each in NAMES}
            if wrong := [each for each in NAMES if found[each] != sent[each]]:
                return wrong
            assert len(texts_of(auction.document, auction.journal_file.read_bytes())) >= len(NAMES)
    return []


@pytest.mark.parametrize("seed", SEEDS)
def test_no_accepted_sheet_is_missing_after_a_kill(
    seed: int, program: pathlib.Path, tmp_path: pathlib.Path
) -> None:
    assert lost(program, tmp_path / "auction", seed, no_harm) == []


HARMS = {"the-last": loses_the_last, "an-earlier": loses_another, "half": loses_half_a_record}


@pytest.mark.parametrize("harm", HARMS.values(), ids=list(HARMS))
def test_a_planted_loss_is_found(harm: Harm, program: pathlib.Path, tmp_path: pathlib.Path) -> None:
    found = [lost(program, tmp_path / str(seed), seed, harm) for seed in SEEDS]
    assert any(found)
