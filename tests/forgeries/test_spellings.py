"""Requests that the server accepts in other spellings: every tool counts them alike."""
import csv
import io
import json
import pathlib

import pytest

from auction.formats import receipts, tables
from auction.formats.journal import Journal
from auction.formats.setup import Setup
from auction.receipts import Sheets
from tests.forgeries.written import (
    BIDDERS,
    Evidence,
    Promise,
    Texts,
    counted_of,
    document_of,
    texts_of,
)
from tests.lib.journals import journal_of

pytestmark = pytest.mark.early
TRUE = Promise(document_of())
TEXTS = texts_of(TRUE)
# Old and new parts of each request; docs/formats.md permits each of them.
SPELLINGS: dict[str, list[tuple[bytes, bytes]]] = {
    "a-query": [(b"/v1/me/bids", b"/v1/me/bids?"), (b"/v1/close", b"/v1/close?")],
    "a-long-query": [
        (b"/v1/me/bids", b"/v1/me/bids?a=/v1/close#b?"),
        (b"/v1/close", b"/v1/close?PUT"),
    ],
    "http-1.0": [(b"HTTP/1.1", b"HTTP/1.0")],
    "other-letters": [(b"authorization: Bearer ", b"AUTHORIZATION:  bEARER   ")],
    "zeros-before-the-length": [(b"content-length: ", b"Content-Length:\t000")],
    "a-space-after-the-length": [(b"content-length: 3", b"content-length:3")],
    "a-line-that-looks-like-another": [
        (b"content-length", b"x-content-length: 1\r\ncontent-length")
    ],
    "a-line-with-a-request": [
        (b"content-length", b"x: PUT /v1/me/bids HTTP/1.1\r\ncontent-length")
    ],
}


def respelled(texts: Texts, pairs: list[tuple[bytes, bytes]]) -> Texts:
    """The requests with other heads."""
    made = []
    for text in texts:
        head, end, body = text.partition(b"\r\n\r\n")
        for old, new in pairs:
            head = head.replace(old, new, 1)
        made.append(head + end + body)
    assert made != texts
    return made


@pytest.fixture(params=SPELLINGS.values(), ids=list(SPELLINGS))
def texts(request: pytest.FixtureRequest) -> Texts:
    return respelled(TEXTS, request.param)


def rows_of(text: str) -> list[dict[str, str]]:
    return list(csv.DictReader(io.StringIO(text)))


def test_the_rules_take_them_alike(texts: Texts) -> None:
    one, other = (
        counted_of(TRUE.document, journal_of(TRUE.document, each)) for each in (TEXTS, texts)
    )
    assert one.auction.rounds == other.auction.rounds
    assert len(other.auction.rounds) == 3


def test_verify_takes_them_with_all_receipts(texts: Texts, tmp_path: pathlib.Path) -> None:
    assert Evidence(TRUE, texts).failed(tmp_path, BIDDERS) == {}


def test_a_record_has_the_same_tables(texts: Texts) -> None:
    made = []
    for each in (TEXTS, texts):
        journal = journal_of(TRUE.document, each)
        made.append(tables.files_of(TRUE.document, journal, counted_of(TRUE.document, journal)))
    for name in ("bids.csv", "product_results.csv", "ties.csv"):
        assert rows_of(made[0][name]) == rows_of(made[1][name])
        assert rows_of(made[1][name])


def test_receipts_and_the_conductor_count_the_same_sheets(
    texts: Texts, tmp_path: pathlib.Path
) -> None:
    """Requests in the journal: 3 sheets and a closing, 4 and one, 4 and one."""
    (tmp_path / "setup.json").write_bytes(TRUE.document)
    setup = Setup.read(tmp_path / "setup.json")
    file = tmp_path / "auction.journal"
    file.write_bytes(journal_of(TRUE.document, texts[:-1]))
    journal, signed = Journal(file, setup), Sheets(file, setup)
    journal.read_on()
    signed.read_on()
    assert (journal.round, sorted(journal.sheets)) == (3, ["X", "Y", "Z"])
    assert [(one.bidder, one.round, one.sheet) for one in signed.fresh] == [
        *[("X", 1, 1), ("Y", 1, 1), ("Z", 1, 1)],
        *[("X", 2, 1), ("Y", 2, 1), ("Z", 2, 1), ("Y", 2, 2)],
        *[("X", 3, 1), ("Z", 3, 1), ("Y", 3, 1), ("Y", 3, 2)],
    ]
    assert [
        (one.token[0], one.round, one.number) for one in receipts.sheets_in(file.read_bytes())
    ] == [(one.bidder, one.round, one.sheet) for one in signed.fresh]
    assert [json.loads(journal.body(one))["round"] for one in journal.closings] == [1, 2]
