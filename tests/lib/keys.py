"""Documents in which an object lacks a key, or has another."""
import copy
from collections.abc import Iterator
from typing import Any

from tests.lib.mutations import Path, places


def part(value: Any, path: Path) -> Any:
    """The part at a path."""
    for step in path:
        value = value[step]
    return value


def objects(value: Any) -> list[Path]:
    """The paths of the objects of a value, one for each set of keys at each depth."""
    found: dict[tuple[Any, ...], Path] = {}
    for path in places(value):
        one = part(value, path)
        if isinstance(one, dict):
            names = tuple(step for step in path if isinstance(step, str))
            found.setdefault((names, *sorted(one)), path)
    return list(found.values())


def name_of(path: Path, key: str) -> str:
    """A name for the key of an object at a path."""
    return ".".join(map(str, (*path, key)))


def without_a_key(value: Any) -> Iterator[tuple[str, Any]]:
    """Yields the value without a key of one of its objects, for each key, with a name."""
    for path in objects(value):
        for key in part(value, path):
            made = copy.deepcopy(value)
            del part(made, path)[key]
            yield name_of(path, key), made


def with_another_key(value: Any) -> Iterator[tuple[str, Any]]:
    """Yields the value with another key in one of its objects, for each object, with a name."""
    for path in objects(value):
        made = copy.deepcopy(value)
        part(made, path)["other"] = 1
        yield name_of(path, "other"), made
