"""The operator's chain of seeds, for tie-breaking numbers: its secret on disk, and what is
published of it.
"""
import dataclasses
import json
import secrets
from pathlib import Path
from typing import Self

from auction.formats.setup import Setup
from auction.formats.ties import LENGTH, SEED, Committed, bytes_of, checked_draw, has_keys, seed_of

from . import disk


class ChainFault(ValueError):
    """There is no chain for this auction, or it cannot be read."""


@dataclasses.dataclass(frozen=True)
class Chain:
    """The chain of an auction, by the digest of its set-up.

    Without a secret, no closing has tie-breaking numbers.
    """

    auction: str
    secret: bytes | None
    draw: str = ""

    @classmethod
    def drawn(cls, setup: Setup) -> Self:
        """A new chain, which nobody knows."""
        return cls(setup.digest, secrets.token_bytes(SEED))

    @classmethod
    def read(cls, path: Path, setup: Setup) -> Self:
        """The chain in a file, which must be of this set-up."""
        try:
            value = json.loads(path.read_bytes())
            has_keys(value, "auction", "draw", "secret")
            secret = None if value["secret"] is None else bytes_of(value["secret"], SEED)
            chain = cls(value["auction"], secret, checked_draw(value["draw"]))
        except FileNotFoundError as error:
            raise ChainFault(
                f"there is no {path}: make it with `auction commit` before round 1. Later, find "
                "the folder that has it: no other chain fits the commitment"
            ) from error
        except (OSError, ValueError) as error:
            raise ChainFault(f"{path} is no chain: {error}") from error
        if chain.auction != setup.digest:
            raise ChainFault(f"{path} is of another set-up: give each auction a folder of its own")
        return chain

    def store(self, path: Path) -> None:
        """Brings the chain to the disk, for its owner only."""
        secret = None if self.secret is None else self.secret.hex()
        disk.store(
            path, json.dumps({"auction": self.auction, "draw": self.draw, "secret": secret}) + "\n"
        )

    def seed(self, number: int) -> bytes | None:
        """The seed of a round, or None without a secret."""
        return None if self.secret is None else seed_of(self.secret, LENGTH, number)

    def committed(self) -> Committed | None:
        """What is published of the chain before round 1, and before a draw."""
        end = self.seed(0)
        return None if end is None else Committed(end, LENGTH)
