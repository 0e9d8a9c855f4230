"""A check, and what it found."""
import dataclasses
import json
from collections.abc import Callable

from auction.faults import in_words

from .auction import Auction


class Fault(Exception):
    """What is wrong, and what to do, in words."""


def ensure(holds: bool, words: str) -> None:
    """Raises a fault in these words if something does not hold."""
    if not holds:
        raise Fault(words)


@dataclasses.dataclass(frozen=True)
class Check:
    """A name, and a function that returns what it found in words, or raises a fault."""

    name: str
    look: Callable[[Auction], str]

    def finding(self, auction: Auction) -> tuple[bool, str]:
        """Whether all is well, and a line that says so or what is wrong.

        What a check did not foresee is a fault.
        """
        try:
            return True, f"ok     {self.name}: {self.look(auction)}"
        except Fault as fault:
            words = str(fault)
        except (json.JSONDecodeError, UnicodeDecodeError) as error:
            words = f"a file is no JSON in UTF-8: {error}"
        except (OSError, ValueError) as error:
            words = in_words(str(error))
        except (LookupError, TypeError, AttributeError) as error:
            words = f"a file has not the form of docs/formats.md: {error}"
        return False, f"FAULT  {self.name}: {' '.join(words.split())}"
