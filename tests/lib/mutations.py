"""Mutations: changed bytes, and JSON values with a changed part."""
import copy
import json
from collections.abc import Iterable, Iterator
from random import Random
from typing import Any

Path = tuple[Any, ...]

NUMBERS = [
    *"0 1 2 3 7 49 50 51 95 99 100 101 110 111 140 141 512 513 1000 1001 4096".split(),
    *"1000000 1000001 999999999999 1000000000000 1000000000001".split(),
    *"9223372036854775807 18446744073709551615 18446744073709551616".split(),
    *"-1 -0 1.0 1e2 1e400 0.5 00 01 0x10 NaN".split(),
    "1" * 40,
]
WORDS = [
    *b"\0|\xff|\xef\xbb\xbf|\r\n|\n|\r|\r\n\r\n|\n\n| |\t".split(b"|"),
    *b': { } [ ] , " \\u0000 \\ud800 \\u0041 null true - e9 .'.split(),
    *b"/ %2f // .. ? # HTTP/1.1 HTTP/1.0".split(),
    b"Bearer ",
    b"content-length: 5\r\n",
    b"transfer-encoding: chunked\r\n",
    b"authorization: Bearer XXXXXXXXXXXXXXXX\r\n",
    b"host: a\r\n",
    b"a" * 300,
]
KEYS = ["x", "version", "granule", "limit", "ties", "increments", "increment", "sheets", "limits"]


def changed_bytes(random: Random, text: bytes) -> bytes:
    """The bytes with one place changed."""
    at = random.randrange(len(text) + 1)
    to = min(len(text), at + random.choice([1, 1, 1, 2, 4, 16, 64]))
    way = random.randrange(7)
    if way == 0:
        return text[:at]
    if way == 1:
        return text[:at] + text[to:]
    if way == 2:
        return text[:at] + bytes([random.randrange(256)]) + text[at + 1 :]
    if way == 3:
        return text[:at] + random.choice(WORDS) + text[at:]
    if way == 4:
        return text[:to] + text[at:]
    if way == 5:
        return text[:at] + random.choice(NUMBERS).encode() + text[to:]
    other = random.randrange(len(text) + 1)
    return text[:at] + text[other : other + to - at] + text[at:]


def much_changed_bytes(random: Random, text: bytes) -> bytes:
    """The bytes with a few places changed, mostly one."""
    for _ in range(random.choice([1, 1, 1, 2, 3, 8])):
        text = changed_bytes(random, text)
    return text


class Raw:
    """A number that is written exactly so."""

    def __init__(self, text: str) -> None:
        self.text = text


def written(value: Any) -> str:
    """The value as compact JSON, with raw numbers unchanged."""
    if isinstance(value, Raw):
        return value.text
    if isinstance(value, dict):
        parts = (f"{json.dumps(key)}:{written(part)}" for key, part in value.items())
        return "{" + ",".join(parts) + "}"
    if isinstance(value, list):
        return "[" + ",".join(map(written, value)) + "]"
    return json.dumps(value, ensure_ascii=False)


def places(value: Any, path: Path = ()) -> Iterator[Path]:
    """The paths of all parts of a value."""
    yield path
    parts: Iterable[tuple[Any, Any]] = ()
    if isinstance(value, (dict, list)):
        parts = value.items() if isinstance(value, dict) else enumerate(value)
    for key, part in parts:
        yield from places(part, (*path, key))


def other_value(random: Random, value: Any) -> Any:
    """A value to replace another one."""
    way = random.randrange(6)
    if way < 3 and isinstance(value, (int, float)) and not isinstance(value, bool):
        if random.random() < 0.7:
            return Raw(random.choice(NUMBERS))
        return max(0, value + random.choice([-1, 1]))
    if way < 3 and isinstance(value, str):
        short, long = value[1:], value + value[:1]
        return random.choice([short, long, value * 5, "", "a b", "\u00e9", value.lower()])
    if way < 3 and isinstance(value, list):
        return random.choice([[], value[1:], value[:-1], value + value[:1], value[::-1], value * 3])
    others: list[Any] = [None, True, 0, 1, "x", [], {}, [[]], [0, 0, 0], {"x": 1}]
    return random.choice([*others, Raw(random.choice(NUMBERS))])


def changed_value(random: Random, value: Any) -> Any:
    """The value with one part changed, left out, or added."""
    value = copy.deepcopy(value)
    path = random.choice(list(places(value)))
    if not path:
        return other_value(random, value)
    *folders, last = path
    at: Any = value
    for key in folders:
        at = at[key]
    way = random.randrange(8)
    if way == 0:
        del at[last]
    elif way == 1 and isinstance(at, dict):
        at[random.choice(KEYS)] = at[last]
    elif way == 2 and isinstance(at, list):
        at.insert(random.randrange(len(at) + 1), copy.deepcopy(at[last]))
    else:
        at[last] = other_value(random, at[last])
    return value


def changed_document(random: Random, value: Any) -> bytes:
    """The bytes of a changed document.

    Mostly its value is changed, otherwise its bytes, or both.
    """
    way = random.random()
    for _ in range(random.choice([1, 1, 1, 2, 4]) if way < 0.8 else 0):
        value = changed_value(random, value)
    text = written(value).encode(errors="replace")
    return much_changed_bytes(random, text) if way > 0.7 else text
