"""Starts on each pair of files that a power loss can leave of a journal in two files.

Four servers in turn write one journal, and the power may go at each of their system calls. A sound
disk keeps all that is synced, and a prefix of the rest. A lost file is not there, or a prefix of
it is. A start must resume with each request that got a reply, and make both files whole.
"""
from dataclasses import dataclass
from functools import partial
from itertools import islice

import pytest

from tests.crash.auction import Auction
from tests.crash.moments import Texts, texts_in
from tests.crash.pair_states import FIRST_LOST, SECOND_LOST, SOUND, Pair, pairs_of
from tests.crash.record import Recorded
from tests.lib.waiting import WORKERS, in_processes

pytestmark = [pytest.mark.needs("cc"), pytest.mark.slow]

# The number of pairs of each kind.
PAIRS = {SOUND: 362, FIRST_LOST: 289, SECOND_LOST: 302}


@dataclass(frozen=True)
class Losses:
    """A journal in two files, and the pairs that a power loss can leave of it."""

    auction: Auction
    texts: Texts
    pairs: list[Pair]


@pytest.fixture(scope="module")
def losses(auction: Auction, pair: list[Recorded]) -> Losses:
    journal = (auction.folder / "one" / "pair.journal").read_bytes()
    texts = texts_in(auction.setup.read_bytes(), journal)
    return Losses(auction, texts, pairs_of(pair, texts))


@pytest.mark.parametrize("kind", PAIRS)
def test_each_pair_is_resumed_and_made_whole(losses: Losses, kind: str) -> None:
    assert sum(pair.kind == kind for pair in losses.pairs) == PAIRS[kind]
    parts = in_processes(partial(faults_of_worker, losses, kind))
    assert [fault for part in parts for fault in part] == []


@pytest.mark.parametrize("which", [0, 1], ids=["first", "second"])
def test_most_pairs_with_a_lost_file_need_the_other(losses: Losses, which: int) -> None:
    lost = [pair for pair in losses.pairs if pair.kind == (FIRST_LOST, SECOND_LOST)[which]]
    held = [losses.texts.whole_in(pair.files[which] or b"") for pair in lost]
    assert sum(count < pair.least for count, pair in zip(held, lost)) > len(lost) / 2


def faults_of_worker(losses: Losses, kind: str, worker: int) -> list[str]:
    """Starts a server on the pairs of a kind that are of this worker's number."""
    pairs = (pair for pair in losses.pairs if pair.kind == kind)
    found = [fault_of_start(losses, pair, worker) for pair in islice(pairs, worker, None, WORKERS)]
    return [fault for fault in found if fault]


def fault_of_start(losses: Losses, pair: Pair, worker: int) -> str | None:
    """Starts a server on two files. What is wrong with its first line, or its files."""
    auction, texts = losses.auction, losses.texts
    first, second = (auction.folder / name / f"{worker}.journal" for name in ("one", "two"))
    for file, content in zip((first, second), pair.files):
        file.unlink(missing_ok=True)
        if content is not None:
            file.write_bytes(content)
    with auction.server(first, mirror=second) as server:
        if not server.is_ready():
            return f"{pair}: the start is refused: {server.ended()}"
        _journal, count, digest = server.lines[0].split()
    number = int(count)
    if not pair.least <= number <= pair.most:
        return f"{pair}: {number} requests, not {pair.least} to {pair.most}"
    if digest != texts.digests[number]:
        return f"{pair}: another digest after {number} requests"
    if {first.read_bytes(), second.read_bytes()} != {texts.journal[: texts.ends[number]]}:
        return f"{pair}: a file has other bytes than {number} requests"
    return None
