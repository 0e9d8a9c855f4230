"""The parts of a set-up document that a closing and a timetable need."""
import dataclasses
import hashlib
import json
from pathlib import Path
from typing import Self

from auction.mock import Kind, kind_of_value


@dataclasses.dataclass(frozen=True)
class Product:
    """A product: bidding units of a block, and blocks supplied."""

    name: str
    units: int
    supply: int


@dataclasses.dataclass(frozen=True)
class Setup:
    """A set-up: its bytes, which begin the journal's digests, and what is read of it.

    Bidders and products count from 0.
    """

    document: bytes
    version: int
    products: list[Product]
    bidders: list[str]
    tokens: dict[str, str]
    kind: Kind = Kind.REAL

    @classmethod
    def read(cls, path: Path) -> Self:
        """The set-up in a file. A ValueError says that it is none."""
        document = path.read_bytes()
        try:
            value = json.loads(document)
            products = [
                Product(each["name"], each["units"], each["supply"]) for each in value["products"]
            ]
            tokens = {bidder["token"]: bidder["name"] for bidder in value["bidders"]}
            names, kind = list(tokens.values()), kind_of_value(value)
            return cls(document, value["version"], products, names, tokens, kind)
        except (KeyError, TypeError, ValueError) as error:
            raise ValueError(f"{path} is not a set-up document: {error!r}") from error

    @property
    def digest(self) -> str:
        """The SHA-256 digest of the document, which identifies the auction."""
        return hashlib.sha256(self.document).hexdigest()
