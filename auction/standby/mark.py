"""fence.json in an auction's folder: as long as it is there, this machine serves nobody.

A standby has it from its first copy on, and a take-over removes it last. A machine that was fenced
has it for good. The units do not start with it, and no conductor and no command changes anything.
"""
import dataclasses
import json
from pathlib import Path
from typing import Self

from auction.conductor import disk

NAME = "fence.json"
STANDBY, FENCED = "standby", "fenced"
WORDS = {
    STANDBY: "this machine is a standby, and serves nobody until `auction take-over`",
    FENCED: "this machine is fenced: another one has taken over",
}


class Marked(ValueError):
    """Why a folder with this file serves nobody."""


@dataclasses.dataclass(frozen=True)
class Mark:
    """Why a folder serves nobody, and for which take-over, by a number that was drawn for it."""

    role: str
    taker: str = ""

    @classmethod
    def read(cls, folder: Path) -> Self | None:
        """The mark of a folder, or None if the folder may serve.

        A file that is no mark counts as one: whoever wrote it wanted the folder to serve nobody.
        """
        try:
            value = json.loads((folder / NAME).read_bytes())
            return cls(str(value["role"]), str(value["taker"]))
        except FileNotFoundError:
            return None
        except (ValueError, LookupError, TypeError):
            return cls(FENCED, "unknown")

    def store(self, folder: Path) -> None:
        """Brings the mark to the disk."""
        disk.store(folder / NAME, json.dumps(dataclasses.asdict(self)) + "\n", disk.PUBLIC)


def check(folder: Path) -> None:
    """Refuses a folder that serves nobody."""
    if mark := Mark.read(folder):
        raise Marked(f"{folder / NAME}: {WORDS.get(mark.role, WORDS[FENCED])}")
