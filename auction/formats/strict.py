"""Texts from outside: JSON that has one meaning only, and words that can be printed safely."""
import json
from collections.abc import Iterable
from typing import Any


def pairs_once(pairs: Iterable[tuple[str, Any]]) -> dict[str, Any]:
    """An object, whose keys must differ. Otherwise two readers could see two values."""
    found: dict[str, Any] = {}
    for key, value in pairs:
        if key in found:
            raise ValueError(f"the key {key!r} is there twice")
        found[key] = value
    return found


def no_constant(word: str) -> Any:
    """JSON has no NaN and no infinity, which Python reads."""
    raise ValueError(f"{word} is not JSON")


def value_in(text: str | bytes) -> Any:
    """The value of a JSON text. Raises ValueError if a key is there twice."""
    return json.loads(text, object_pairs_hook=pairs_once, parse_constant=no_constant)


def published(value: Any) -> bytes:
    """A value as the conductor and `auction commit` publish it."""
    return (json.dumps(value, separators=(",", ":")) + "\n").encode()


def escaped(words: str) -> str:
    """Words in printable ASCII: a terminal takes no command from them, and no line is added."""
    return words.encode("unicode_escape").decode("ascii")
