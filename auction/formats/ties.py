"""Tie-breaking numbers that are fixed before the auction, by a chain of seeds.

    secret -SHA-256-> .. -SHA-256-> seed of round 2 -SHA-256-> seed of round 1 -SHA-256-> end

The operator draws the secret and publishes the end before round 1 (docs/formats.md,
commitment.json). The seed of each round is published after its closing. From a seed, anyone can
compute those of earlier rounds and the numbers of its round, but no later seed. The conductor and
`auction close` make closings with these functions, and `auction verify` checks published closings
with them.
"""
import base64
import binascii
import dataclasses
import functools
import hashlib
import hmac
import re
from collections.abc import Collection
from pathlib import Path
from typing import Any, Self

from auction.mock import mark_of

from .strict import value_in

LENGTH = 10_000  # Rounds of a chain.
SEED = 32  # bytes of a seed
MOST_TIES = 16_384  # that a closing may list
NUMBER = 6  # bytes of a number, so that each reader of JSON has it whole
MOST_DRAW = 200
KEY_HEAD = bytes.fromhex("302a300506032b6570032100")  # of an Ed25519 key in DER

Pair = tuple[int, int]


class TiesFault(ValueError):
    """A wrong commitment, seed, or list of tie-breaking numbers, in words for people."""


@dataclasses.dataclass(frozen=True)
class Committed:
    """The published part of a chain: its end, its rounds, and the result of a draw, or nothing.

    A commitment has no result, because it is published before the draw.
    """

    end: bytes
    length: int
    draw: str = ""

    def after(self, draw: str) -> "Committed":
        """The chain after a draw with this result."""
        return dataclasses.replace(self, draw=draw)


@dataclasses.dataclass(frozen=True)
class Commitment:
    """What is published before round 1: the set-up's digest, the chain, and the key in base64.

    Without a chain, closings have no tie-breaking numbers. That of a mock auction says so.
    """

    auction: str
    chain: Committed | None
    key: str
    mock: bool = False

    @classmethod
    def of(cls, value: Any) -> Self:
        """The commitment in a JSON value."""
        try:
            mock = value.get("mock", False)
            has_keys(value, "auction", "chain", "key", *(["mock"] if mock is True else []))
            chain = value["chain"]
            if chain is not None:
                has_keys(chain, "draw", "end", "length")
                chain = Committed(
                    bytes_of(chain["end"], SEED), chain["length"], checked_draw(chain["draw"])
                )
                if type(chain.length) is not int or chain.length < 1:
                    raise ValueError("the length of the chain")
            key = base64.b64decode(value["key"], validate=True)
            if len(key) != 44 or not key.startswith(KEY_HEAD):
                raise ValueError("the key")
            return cls(bytes_of(value["auction"], SEED).hex(), chain, value["key"], mock)
        except (AttributeError, KeyError, TypeError, ValueError, binascii.Error) as error:
            raise TiesFault(f"this is not a commitment: {error}") from error

    @classmethod
    def read(cls, path: Path) -> Self:
        """Reads the commitment in a file."""
        try:
            return cls.of(value_in(path.read_bytes()))
        except (OSError, ValueError) as error:
            raise TiesFault(f"{path}: {error}") from error

    def value(self) -> dict[str, Any]:
        """The published JSON value."""
        chain = self.chain and {
            "draw": self.chain.draw,
            "end": self.chain.end.hex(),
            "length": self.chain.length,
        }
        value = {"auction": self.auction, "chain": chain, "key": self.key}
        return {**value, **mark_of(self.mock)}


@dataclasses.dataclass(frozen=True)
class Draw:
    """The result of a public draw, in words, with the SHA-256 of the commitment of before it."""

    commitment: str
    words: str

    @classmethod
    def of(cls, value: Any) -> Self:
        """The draw in a JSON value."""
        try:
            has_keys(value, "commitment", "draw")
            bytes_of(value["commitment"], 32)
            if not checked_draw(value["draw"]):
                raise ValueError("a draw has words")
            return cls(value["commitment"], value["draw"])
        except (TypeError, ValueError) as error:
            raise TiesFault(f"this is not a draw: {error}") from error

    @classmethod
    def added(cls, commitment: bytes, words: str) -> Self:
        """The draw with these words after the published bytes of a commitment."""
        return cls(hashlib.sha256(commitment).hexdigest(), words)

    def value(self) -> dict[str, str]:
        """The published JSON value."""
        return {"commitment": self.commitment, "draw": self.words}


def has_keys(value: Any, *keys: str) -> None:
    """Raises ValueError unless a value is an object with exactly these keys."""
    if not isinstance(value, dict) or value.keys() != set(keys):
        raise ValueError(f"its keys must be {', '.join(keys)}")


def bytes_of(text: Any, length: int) -> bytes:
    """The bytes of a text in lower case hexadecimal."""
    if not isinstance(text, str) or not re.fullmatch(f"[0-9a-f]{{{2 * length}}}", text):
        raise ValueError(f"{text!r} is not {2 * length} hexadecimal digits")
    return bytes.fromhex(text)


def checked_draw(words: Any) -> str:
    """The result of a draw, at most 200 characters of printable ASCII.

    Raises ValueError for any other.
    """
    if (
        not isinstance(words, str)
        or len(words) > MOST_DRAW
        or not (words.isascii() and words.isprintable())
    ):
        raise ValueError(f"a draw has at most {MOST_DRAW} letters of printable ASCII")
    return words


# ---- Seeds


def seed_before(seed: bytes, steps: int = 1) -> bytes:
    """The seed of an earlier round, or the end: SHA-256, applied `steps` times."""
    for _ in range(steps):
        seed = hashlib.sha256(seed).digest()
    return seed


@functools.cache
def seed_of(secret: bytes, length: int, number: int) -> bytes:
    """The seed of a round. That of round 0 is the end of the chain."""
    if not 0 <= number <= length:
        raise TiesFault(f"the chain has seeds for {length} rounds, and none for round {number}")
    return seed_before(secret, length - number)


def check_seed(chain: Committed, number: int, seed: bytes) -> None:
    """Refuses a seed that is not the one of this round."""
    if (
        len(seed) != SEED
        or not 1 <= number <= chain.length
        or seed_before(seed, number) != chain.end
    ):
        raise TiesFault(
            f"the seed of round {number} does not lead to the published end of the chain"
        )


# ---- Numbers


def tie_number(seed: bytes, draw: str, number: int, bidder: int, product: int) -> int:
    """The tie-breaking number of a bidder and a product in a round."""
    message = f"{number} {bidder} {product} {draw}".encode("ascii")
    return int.from_bytes(hmac.digest(seed, message, "sha256")[:NUMBER], "big")


def ties_of(seed: bytes, draw: str, number: int, pairs: Collection[Pair]) -> list[list[int]]:
    """A closing's list of tie-breaking numbers for these pairs of bidder and product."""
    return [
        [bidder, product, tie_number(seed, draw, number, bidder, product)]
        for bidder, product in pairs
    ]


def needed_pairs(number: int, bidders: int, products: int, matter: Collection[Pair]) -> list[Pair]:
    """The pairs that a closing must list.

    In round 1 there are none, because its bids are not processed in order. Later the list has all
    pairs or, if these are too many for one closing, those that matter.
    """
    if number == 1:
        return []
    if bidders * products <= MOST_TIES:
        return [(bidder, product) for bidder in range(bidders) for product in range(products)]
    return sorted(matter)


def check_ties(
    chain: Committed | None,
    number: int,
    seed: bytes | None,
    ties: list[list[int]],
    bidders: int,
    products: int,
    matter: Collection[Pair] = (),
) -> None:
    """Refuses the list of a closing that differs from the commitment.

    `bidders` and `products` are counts. `matter` has the pairs with processed demand before the
    closing, or with a bid in force. It counts only if a closing cannot list all pairs. Each listed
    number is checked, so the list may have other pairs too.
    """
    if chain is None:
        if ties:
            raise TiesFault(
                f"round {number} has tie-breaking numbers, but the commitment says that no round "
                "has any"
            )
        return
    if seed is None:
        raise TiesFault(f"the seed of round {number} is not published")
    check_seed(chain, number, seed)
    needed = needed_pairs(number, bidders, products, matter)
    if not ties and len(needed) > MOST_TIES:
        return
    for bidder, product, given in ties:
        if given != (wanted := tie_number(seed, chain.draw, number, bidder, product)):
            raise TiesFault(
                f"round {number}: bidder {bidder} and product {product} have the tie-breaking "
                f"number {given}, and by the seed it is {wanted}"
            )
    if missing := set(needed) - {(bidder, product) for bidder, product, _ in ties}:
        bidder, product = min(missing)
        raise TiesFault(
            f"round {number}: bidder {bidder} and product {product} have no tie-breaking number, "
            "so they come first"
        )
