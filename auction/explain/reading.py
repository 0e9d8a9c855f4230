"""Reads a JSON text as the program does, and finds the places of its parts.

Python's own reader reads the values, because it is fast. The place of a part is found only if it
has a fault.
"""
import json
import re
from collections.abc import Iterator
from typing import Any

from auction.recount.formats import nesting, number_in

Path = tuple[str | int, ...]

DEEPEST = 127
SPACE = re.compile(r"[ \t\n\r]*")
TOKENS = re.compile(r'"[^"\\]*(?:\\.[^"\\]*)*"|[][{}]|-?[0-9][0-9.eE+-]*|NaN|-?Infinity', re.S)


class NotJson(Exception):
    """The fault that a text is not JSON: the text, the place, and words."""


class Odd:
    """A number that is not a whole one from 0 to 2^64-1, or is not written as one."""

    def __init__(self, text: str) -> None:
        self.text = text

    def __repr__(self) -> str:
        return self.text


def number(digits: str) -> int | Odd:
    """A whole number, or an odd one. Raises ValueError for NaN and for a number such as 1e400."""
    value = number_in(digits)
    return value if isinstance(value, int) and value < 2**64 else Odd(digits)


class Document:
    """A text, its value, and the places of the value's parts. Raises NotJson."""

    def __init__(self, data: bytes) -> None:
        self.text, self.has_repeats = decoded(data), False
        self.tables: dict[int, tuple[dict[str | int, int], dict[str, int]]] = {}
        self.repeats: dict[int, list[tuple[int, str]]] = {}
        self.skim = json.JSONDecoder(parse_int=len, parse_float=len, parse_constant=len).raw_decode
        try:
            self.value = self.read()
            is_odd = nesting(self.value) > DEEPEST or re.search(r"\\u[dD]", self.text)
        except json.JSONDecodeError as error:
            raise NotJson(self.text, error.pos, error.msg) from None
        except (ValueError, RecursionError):
            is_odd = True
        if is_odd:
            look_through(self.text)
        self.begin = self.skip(0)

    def read(self) -> Any:
        """The value. Notes whether a key occurs twice in an object."""
        return json.loads(
            self.text,
            object_pairs_hook=self.object_of,
            parse_int=number,
            parse_float=number,
            parse_constant=number,
        )

    def object_of(self, pairs: list[tuple[str, Any]]) -> dict[str, Any]:
        """The object of these pairs."""
        found = dict(pairs)
        self.has_repeats = self.has_repeats or len(found) != len(pairs)
        return found

    def skip(self, at: int) -> int:
        """The place of the first character after white space."""
        space = SPACE.match(self.text, at)
        return space.end() if space else at

    def table(self, at: int) -> tuple[dict[str | int, int], dict[str, int]]:
        """The places of the parts, and of the keys, of the object or list that begins here."""
        if at not in self.tables:
            parts: dict[str | int, int] = {}
            keys: dict[str, int] = {}
            twice, place = [], self.skip(at + 1)
            while self.text[place] not in "]}":
                key: str | int = len(parts)
                if self.text[at] == "{":
                    name, end = self.skim(self.text, place)
                    twice += [(place, name)] if name in keys else []
                    key, keys[name] = name, place
                    place = self.skip(self.skip(end) + 1)
                parts[key] = place
                place = self.skip(self.skim(self.text, place)[1])
                if self.text[place] == ",":
                    place = self.skip(place + 1)
            self.tables[at], self.repeats[at] = (parts, keys), twice
        return self.tables[at]

    def place(self, path: Path, key: str | None = None) -> int:
        """The index at which the part at a path begins, or one of its keys."""
        at = self.begin
        for step in path:
            at = self.table(at)[0][step]
        return at if key is None else self.table(at)[1][key]

    def repeated(self, at: int | None = None, path: Path = ()) -> Iterator[tuple[int, Path, str]]:
        """Yields each key that occurs twice: its place, the path of its object, and the key."""
        at = self.begin if at is None else at
        if self.has_repeats and self.text[at] in "[{":
            parts, _ = self.table(at)
            yield from ((place, path, key) for place, key in self.repeats[at])
            for step, place in parts.items():
                yield from self.repeated(place, (*path, step))


def decoded(data: bytes) -> str:
    """The text of a file. Raises NotJson if it is not UTF-8."""
    try:
        return data.decode()
    except UnicodeDecodeError as error:
        raise NotJson(data.decode("latin1"), error.start, "bytes that are not UTF-8") from None


def look_through(text: str) -> None:
    """Raises NotJson for what Python reads and the program does not."""
    depth = 0
    for token in TOKENS.finditer(text):
        word, place = token[0], token.start()
        depth += (word in "[{") - (word in "]}")
        if depth > DEEPEST:
            raise NotJson(text, place, "nested more than 127 deep")
        if word[0] == '"' and re.search("[\ud800-\udfff]", json.loads(word, strict=False)):
            raise NotJson(text, place, "an escape of half a letter (\\ud800 to \\udfff by itself)")
        if word[0] not in '"[]{}':
            try:
                number(word)
            except ValueError:
                raise NotJson(text, place, f"{word[:40]} is not an accepted number") from None
