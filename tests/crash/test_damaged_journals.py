"""Journals that are truncated, changed, or continued by other bytes, or that no server wrote."""
import random
from functools import partial
from itertools import islice
from pathlib import Path

import pytest

from tests.crash.auction import Auction, last_line
from tests.crash.journals import Ten
from tests.crash.requests import BIDDERS, closing, page, sheet
from tests.lib.http import text_of
from tests.lib.journals import FRONT, HEAD, journal_of
from tests.lib.runs import Run
from tests.lib.waiting import WORKERS, in_processes

KIND_LENGTH = 24
MARK_LENGTH = 8
# The length of the journal of ten requests.
LENGTH = 1926


def audits_of(auction: Auction, files: dict[int, bytes], worker: int) -> dict[int, str]:
    """Audits each file of a worker's number. Returns the last lines, by the files' keys."""
    lines = {}
    for key in islice(files, worker, None, WORKERS):
        file = auction.journal_of(worker, files[key])
        lines[key] = last_line(auction.audit(file))
        assert file.read_bytes() == files[key], "`audit` changed the file"
    return lines


def audited(auction: Auction, files: dict[int, bytes]) -> dict[int, str]:
    """Audits all files."""
    lines: dict[int, str] = {}
    for part in in_processes(partial(audits_of, auction, files)):
        lines |= part
    return lines


def test_a_truncated_journal_is_read_as_its_first_requests(auction: Auction, ten: Ten) -> None:
    files = {length: ten.content[:length] for length in range(LENGTH + 1)}
    assert files[LENGTH] == ten.content
    found = audited(auction, files)
    assert differing(found, {length: line_of_truncated(ten, length) for length in files}) == {}


def line_of_truncated(ten: Ten, length: int) -> str:
    """The last line that `audit` must print of the first bytes of the journal."""
    count = max((number for number, end in enumerate(ten.ends) if end <= length), default=0)
    return f"journal {count} {ten.digests[count]}"


def test_a_changed_byte_is_found(auction: Auction, ten: Ten) -> None:
    files = {place: with_changed(ten.content, place) for place in range(LENGTH)}
    found = audited(auction, files)
    assert differing(found, {place: line_of_changed(ten, place) for place in files}) == {}


def with_changed(content: bytes, place: int) -> bytes:
    """The bytes with one bit of the one at an index changed."""
    return content[:place] + bytes([content[place] ^ 1]) + content[place + 1 :]


def line_of_changed(ten: Ten, place: int) -> str:
    """The last line that `audit` must print if the byte at this index is changed."""
    if place < KIND_LENGTH:
        return "fault: journal_unknown"
    if place < HEAD:
        return "fault: journal_setup"
    record = max(count for count, end in enumerate(ten.ends) if end <= place)
    # The last record reads as torn, unless one of its two lengths was changed.
    if record == 9 and place >= ten.ends[9] + MARK_LENGTH:
        return f"journal 9 {ten.digests[9]}"
    return f"fault: journal_damaged {ten.ends[record]}"


def differing(found: dict[int, str], wanted: dict[int, str]) -> dict[int, tuple[str, str]]:
    """The found lines that are not the wanted ones, with these."""
    assert len(found) == len(wanted)
    return {key: (found[key], line) for key, line in wanted.items() if found[key] != line}


# ---- Bytes after the journal


@pytest.mark.parametrize("name", ["seven-bytes", "a-prefix-of-a-record"])
def test_a_start_cuts_off_a_torn_record(
    auction: Auction, ten: Ten, tmp_path: Path, name: str
) -> None:
    tail = b"1234567" if name == "seven-bytes" else ten.content[HEAD : HEAD + 60]
    file = tmp_path / "tail.journal"
    file.write_bytes(ten.content + tail)
    with auction.server(file, connections=1) as server:
        assert server.ready().lines[0] == ten.last_line
        page(server.port, "/v1/status")
        assert server.ended() == (0, f"cut {len(tail)} bytes at {ten.end}\n")
    assert file.read_bytes() == ten.content


@pytest.mark.parametrize(
    "tail", [bytes(4096), random.Random(105).randbytes(512)], ids=["zeros", "noise"]
)
def test_a_start_refuses_other_bytes_after_the_journal(
    auction: Auction, ten: Ten, tmp_path: Path, tail: bytes
) -> None:
    file = tmp_path / "tail.journal"
    file.write_bytes(ten.content + tail)
    assert auction.end_of(file) == (1, f"fault: journal_damaged {ten.end}\n")
    assert file.read_bytes() == ten.content + tail


# ---- Whole records of requests that the auction does not accept

FIRST = sheet(BIDDERS[0], 1, 100, 2)
REFUSED = {
    "a-sheet-for-a-later-round": sheet(BIDDERS[1], 7, 100, 1),
    "a-sheet-of-an-unknown-token": sheet("N" * 16, 1, 100, 1),
    "a-sheet-above-the-cap": sheet(BIDDERS[1], 1, 100, 3),
    "a-closing-of-a-later-round": closing(7),
    "a-request-for-a-page": text_of("GET /v1/status", BIDDERS[1]),
    "a-request-without-a-page": text_of("GET /none", BIDDERS[1]),
    "half-a-request": b"PUT /v1/me/bids HTTP/1.1\r\n",
}
FAULT = f"fault: journal_refused {HEAD + FRONT + len(FIRST)}\n"


@pytest.fixture(params=list(REFUSED))
def refused(request: pytest.FixtureRequest) -> bytes:
    """A request that the auction does not accept."""
    return REFUSED[request.param]


@pytest.fixture
def unacceptable(auction: Auction, refused: bytes, tmp_path: Path) -> Path:
    """A journal that ends with this request. No command may change it."""
    file = tmp_path / "unacceptable.journal"
    file.write_bytes(journal_of(auction.setup.read_bytes(), [FIRST, refused]))
    return file


def test_serve_refuses_a_journal_with_a_request_that_is_not_accepted(
    auction: Auction, unacceptable: Path
) -> None:
    before = unacceptable.read_bytes()
    assert auction.end_of(unacceptable) == (1, FAULT)
    assert unacceptable.read_bytes() == before


def test_audit_refuses_a_journal_with_a_request_that_is_not_accepted(
    auction: Auction, unacceptable: Path
) -> None:
    before = unacceptable.read_bytes()
    assert auction.audit(unacceptable) == Run(1, "", FAULT)
    assert unacceptable.read_bytes() == before


def test_journal_lists_a_request_that_is_not_accepted(
    auction: Auction, unacceptable: Path, refused: bytes
) -> None:
    before = unacceptable.read_bytes()
    listed = auction.list(unacceptable)
    assert listed.status == 0
    assert refused.decode() in listed.output
    assert unacceptable.read_bytes() == before
