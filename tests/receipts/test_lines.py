"""The lines of a request that say when and by whom it was sent, and what a receipt has of them."""
import pytest

from auction.formats.receipts import Receipt

pytestmark = pytest.mark.early
END = b"content-length: 2\r\n\r\n{}"
# Header lines, and the time and the person in the receipt.
LINES = {
    "both": (b"Taken: 1796043600\r\nBy: alice\r\n", "2026-11-30T13:00:00Z", "alice"),
    "in-small-letters": (b"taken:1796043600\r\nby:a-b_9 \r\n", "2026-11-30T13:00:00Z", "a-b_9"),
    "the-last-second": (b"Taken: 253402300799\r\n", "9999-12-31T23:59:59Z", ""),
    "after-the-last-second": (b"Taken: 253402300800\r\n", "", ""),
    "none": (b"", "", ""),
    "no-number": (b"Taken: -1\r\nBy: \r\n", "", ""),
    "letters-of-another-alphabet": ("Taken: ١\r\nBy: é\r\n".encode(), "", ""),
    "twice": (b"Taken: 1\r\nTaken: 1\r\nBy: a\r\nBy: b\r\n", "", ""),
    "a-long-name": (b"By: " + b"a" * 33 + b"\r\n", "", ""),
}


def receipt_of(lines: bytes) -> Receipt:
    text = b"PUT /v1/me/bids HTTP/1.0\r\n" + lines + END
    return Receipt.of("0" * 64, "X", 1, 1, text)


@pytest.mark.parametrize(("lines", "taken", "by"), LINES.values(), ids=LINES)
def test_a_receipt_has_time_and_person_of_its_request(lines: bytes, taken: str, by: str) -> None:
    receipt = receipt_of(lines)
    assert (receipt.taken, receipt.by) == (taken, by)


def test_lines_of_the_body_are_none_of_the_head() -> None:
    body = b"\r\nTaken: 1\r\nBy: alice\r\n"
    text = b"PUT / HTTP/1.0\r\ncontent-length: %d\r\n\r\n%s" % (len(body), body)
    receipt = Receipt.of("0" * 64, "X", 1, 1, text)
    assert (receipt.taken, receipt.by) == ("", "")


def test_time_and_person_are_signed() -> None:
    messages = {receipt_of(lines).message() for lines, _, _ in LINES.values()}
    named = receipt_of(LINES["both"][0]).message().split(b"\n")
    assert len(messages) == len(LINES)
    assert {b"taken 2026-11-30T13:00:00Z", b"by alice"} <= set(named)
