"""Starts on each file that a power loss can leave while three servers in turn write one journal.

A start must resume with the requests that were synced, or refuse the file at the first byte after
its whole records. The files are made from the recorded system calls by prefixes, pages, and
sectors.
"""
import pytest

from tests.crash.auction import Auction, last_line
from tests.crash.moments import moments_of, texts_in
from tests.crash.record import Recorded
from tests.crash.requests import BIDDERS, sheet
from tests.crash.shims import Shims
from tests.crash.starts import Losses, sample_of, starts_on
from tests.crash.states import (
    CUT,
    CUT_PAGES,
    KINDS,
    LOST,
    PAGES,
    PREFIX,
    STALE,
    TORN,
    UNKEPT,
    ZEROS,
    Kind,
)
from tests.lib.journals import journal_of

pytestmark = [pytest.mark.needs("cc"), pytest.mark.slow]

# The number of files of each kind.
STATES = {
    PREFIX: 13_750,
    CUT: 541,
    ZEROS: 165,
    PAGES: 62,
    STALE: 61,
    TORN: 807,
    CUT_PAGES: 2,
    LOST: 112,
    UNKEPT: 122,
}
# Kinds in which bytes are lost that the disk had reported as synced.
LOSING = (LOST, UNKEPT)


@pytest.fixture(scope="module")
def losses(auction: Auction, shims: Shims, recorded: list[Recorded]) -> Losses:
    """The moments of the recorded journal, at each of which a power loss can come."""
    document = auction.setup.read_bytes()
    texts = texts_in(document, (auction.folder / "recorded.journal").read_bytes())
    audits = []
    for end in texts.ends:
        audits.append(auction.audit(auction.journal_of(0, texts.journal[:end])))
    others = [sheet(token, 1, 100, 1) for token in BIDDERS] * (len(texts.journal) // 500)
    filler = journal_of(document, others)
    return Losses(auction, shims, texts, moments_of(recorded, texts), audits, filler)


def test_the_record_has_each_byte_of_the_journal(losses: Losses) -> None:
    assert losses.moments[-1].written == losses.texts.journal


def test_audit_prints_the_count_and_the_digest_of_the_first_requests(losses: Losses) -> None:
    lines = [f"journal {count} {digest}" for count, digest in enumerate(losses.texts.digests)]
    assert [last_line(audit) for audit in losses.audits] == lines


def test_there_are_15622_files() -> None:
    assert set(STATES) == set(KINDS)
    assert sum(STATES.values()) == 15_622


@pytest.mark.parametrize(
    ("kind", "count"),
    STATES.items(),
    ids=[kind.name.replace(" ", "-").replace(",", "") for kind in STATES],
)
def test_each_file_is_resumed_or_refused(losses: Losses, kind: Kind, count: int) -> None:
    starts = starts_on(losses, kind)
    assert starts.counts["states"] == count
    assert starts.counts["served"] * sample_of(kind) >= count
    assert starts.faults == []
    has_lost = starts.counts["resumed without a request that got a reply"] > 0
    assert has_lost == (kind in LOSING), starts.counts
