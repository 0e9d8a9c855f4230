"""Spoils journals and set-ups, as a fault of the disk does, or as a person who forges digests."""
import json
from collections.abc import Iterator
from random import Random
from typing import NamedTuple

from tests.lib.journals import HEAD, head_of, journal_of
from tests.lib.mutations import changed_bytes, changed_document


class Case(NamedTuple):
    """A set-up document and a journal, with words for how they were spoiled."""

    what: str
    document: bytes
    journal: bytes


def spoiled(chance: Random, document: bytes, texts: list[bytes]) -> Iterator[Case]:
    """An auction's set-up and journal, spoiled in each way."""
    journal = journal_of(document, texts)
    yield Case("cut off", document, journal[: chance.randint(0, len(journal))])
    at = chance.randrange(len(journal))
    byte = bytes([journal[at] ^ 1 << chance.randrange(8)])
    yield Case("a byte changed", document, journal[:at] + byte + journal[at + 1 :])
    at = chance.randrange(HEAD)
    byte = bytes([chance.randrange(256)])
    yield Case("a byte of the head changed", document, journal[:at] + byte + journal[at + 1 :])
    yield Case("another set-up", document + b" ", journal)
    changed = changed_document(chance, json.loads(document))
    yield Case("a changed set-up", changed, head_of(changed))
    if texts:
        forged = journal_of(document, rewritten(chance, texts))
        yield Case("requests changed", document, forged)


def rewritten(chance: Random, texts: list[bytes]) -> list[bytes]:
    """The requests after a forgery: one changed, left out, repeated, or exchanged for another."""
    texts, kind = list(texts), chance.random()
    at, other = chance.randrange(len(texts)), chance.randrange(len(texts))
    if kind < 0.7:
        texts[at] = changed_bytes(chance, texts[at]) or b"\0"
    elif kind < 0.8:
        del texts[at]
    elif kind < 0.9:
        texts.insert(other, texts[at])
    else:
        texts[at], texts[other] = texts[other], texts[at]
    return texts
