"""Lots: the order of a set-up's bidders, which follows from a committed seed and a public draw.

The operator draws a seed, and publishes its digest and the bidders' names. Then comes the draw, and
then the seed and the order. So neither the operator nor whoever holds the draw chooses the order.
"""
import dataclasses
import hashlib
import hmac
from collections.abc import Iterable
from typing import Any, Self

from .ties import SEED, bytes_of, checked_draw, has_keys

LOTS, ORDER = "lots.json", "order.json"


class LotsFault(ValueError):
    """Lots that do not give the order of the bidders, in words for people."""


@dataclasses.dataclass(frozen=True)
class Lots:
    """What is published before the draw: the names in alphabetical order, and the seed's digest."""

    bidders: list[str]
    seed: str

    @classmethod
    def of(cls, value: Any) -> Self:
        """The lots in a JSON value. Raises ValueError for another value."""
        has_keys(value, "bidders", "seed")
        bytes_of(value["seed"], 32)
        names = value["bidders"]
        if not isinstance(names, list) or not all(isinstance(name, str) for name in names):
            raise ValueError("the names of bidders")
        if names != sorted(set(names)):
            raise ValueError("the names must be in alphabetical order, each once")
        return cls(names, value["seed"])

    @classmethod
    def drawn(cls, names: Iterable[str], seed: bytes) -> Self:
        """The lots of these bidders by a secret seed."""
        return cls(sorted(names), hashlib.sha256(seed).hexdigest())

    def value(self) -> dict[str, Any]:
        """The published JSON value."""
        return dataclasses.asdict(self)


@dataclasses.dataclass(frozen=True)
class Order:
    """What is published after the draw: its result, the SHA-256 of the lots, and the seed."""

    draw: str
    lots: str
    seed: str

    @classmethod
    def of(cls, value: Any) -> Self:
        """The order in a JSON value. Raises ValueError for another value."""
        has_keys(value, "draw", "lots", "seed")
        bytes_of(value["lots"], 32)
        bytes_of(value["seed"], SEED)
        if not checked_draw(value["draw"]):
            raise ValueError("a draw has words")
        return cls(**value)

    def value(self) -> dict[str, str]:
        """The published JSON value."""
        return dataclasses.asdict(self)


def lot_of(seed: bytes, draw: str, name: str) -> bytes:
    """The lot of a bidder."""
    return hmac.digest(seed, f"{name} {draw}".encode(), "sha256")


def ordered(names: Iterable[str], seed: bytes, draw: str) -> list[str]:
    """The bidders from the smallest lot to the largest."""
    return sorted(names, key=lambda name: lot_of(seed, draw, name))


def check_order(text: bytes, lots: Lots, order: Order, bidders: list[str]) -> None:
    """Refuses bidders that are not in the order of the draw after the lots with these bytes."""
    seed = bytes_of(order.seed, SEED)
    if hashlib.sha256(text).hexdigest() != order.lots:
        raise LotsFault(f"{ORDER} is of other lots than {LOTS}")
    if hashlib.sha256(seed).hexdigest() != lots.seed:
        raise LotsFault(f"the seed of {ORDER} is not the one of {LOTS}")
    if sorted(bidders) != lots.bidders:
        raise LotsFault("the set-up has other bidders than the ones that the lots were drawn for")
    if bidders != (wanted := ordered(bidders, seed, order.draw)):
        place = next(at for at, pair in enumerate(zip(bidders, wanted)) if pair[0] != pair[1])
        raise LotsFault(
            f"bidder {place} of the set-up is {bidders[place]}, and by the lots it is "
            f"{wanted[place]}"
        )
