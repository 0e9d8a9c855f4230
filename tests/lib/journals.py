"""A reader and a writer of journals that shares nothing with the program: it follows the format
only.
"""
import hashlib
from collections.abc import Iterable, Iterator

KIND = b"clock_auction journal 1\n"
HEAD = len(KIND) + 32
FRONT = 40


class Wrong(AssertionError):
    """The fault of a journal, with the byte at which it is."""


def whole_texts_of(setup: bytes, journal: bytes) -> Iterator[tuple[bytes, str]]:
    """The whole requests of a journal that a server may be writing, whose last record may be
    incomplete.
    """
    place = HEAD
    while place + FRONT <= len(journal) and (
        end := place + FRONT + int.from_bytes(journal[place : place + 4], "big")
    ) <= len(journal):
        place = end
    return each_text_of(setup, journal, place)


def head_of(setup: bytes) -> bytes:
    """The head of the journal of a set-up document."""
    return KIND + hashlib.sha256(setup).digest()


def record_of(digest: bytes, text: bytes) -> bytes:
    """The record of a request after one of this digest, or after the set-up. Its own digest begins
    at byte 8.
    """
    length = len(text).to_bytes(4, "big")
    return length + length + hashlib.sha256(digest + text).digest() + text


def journal_of(setup: bytes, texts: Iterable[bytes]) -> bytes:
    """The bytes of a journal of these requests, which the auction need not accept."""
    journal, digest = head_of(setup), hashlib.sha256(setup).digest()
    for text in texts:
        record = record_of(digest, text)
        journal, digest = journal + record, record[8:FRONT]
    return journal


def token_in(text: bytes) -> str | None:
    """The bearer token of a request."""
    for line in text.partition(b"\r\n\r\n")[0].split(b"\r\n")[1:]:
        name, _, value = line.partition(b":")
        if name.lower() == b"authorization":
            return value.split()[1].decode()
    return None


def body_in(text: bytes) -> bytes:
    """The body of an accepted request, without bytes after it."""
    head, _, rest = text.partition(b"\r\n\r\n")
    for line in head.split(b"\r\n")[1:]:
        name, _, value = line.partition(b":")
        if name.lower() == b"content-length":
            return rest[: int(value)]
    return b""


def texts_of(setup: bytes, journal: bytes) -> list[tuple[bytes, str]]:
    """The requests of a whole journal of this set-up, each with its digest. Raises Wrong if it is
    damaged.
    """
    return list(each_text_of(setup, journal, len(journal)))


def each_text_of(setup: bytes, journal: bytes, length: int) -> Iterator[tuple[bytes, str]]:
    """Like texts_of, but yields one request after the other, and reads only the first `length`
    bytes.
    """
    digest = hashlib.sha256(setup).digest()
    if journal[:HEAD] != KIND + digest:
        raise Wrong("no journal of this set-up")
    place = HEAD
    while place < length:
        size = int.from_bytes(journal[place : place + 4], "big")
        text = journal[place + FRONT : place + FRONT + size]
        digest = hashlib.sha256(digest + text).digest()
        if journal[place + 4 : place + 8] != journal[place : place + 4] or len(text) != size:
            raise Wrong(f"no whole record at byte {place}")
        if journal[place + 8 : place + FRONT] != digest:
            raise Wrong(f"another digest at byte {place}")
        yield text, digest.hex()
        place += FRONT + size
