"""Reading the files that the conductor stored. A file of another form is named, with its fault."""
import json
from pathlib import Path
from typing import Any

Kind = type | tuple[type, ...]


class Damaged(ValueError):
    """A file that does not have the form in which it was stored."""

    def __init__(self, path: Path, fault: str) -> None:
        super().__init__(f"{path} is damaged: {fault}")


def read(path: Path, **kinds: Kind) -> dict[str, Any]:
    """The object in a file, which has these keys with values of these kinds."""
    try:
        value = json.loads(path.read_bytes())
    except (ValueError, RecursionError) as fault:
        raise Damaged(path, f"it is no JSON: {fault}") from fault
    check(path, "it", value, kinds)
    return dict(value)


def check(path: Path, what: str, value: Any, kinds: dict[str, Kind]) -> None:
    """A Damaged unless a value in a file is an object with these keys and kinds of values."""
    if not isinstance(value, dict):
        raise Damaged(path, f"{what} is no object")
    for key, kind in kinds.items():
        if key not in value or not is_a(value[key], kind):
            raise Damaged(path, f"{what} has no {key}, or one of another form")


def is_a(value: Any, kind: Kind) -> bool:
    """Whether a value is of a kind. True and false are no numbers."""
    kinds = kind if isinstance(kind, tuple) else (kind,)
    return isinstance(value, kind) and (not isinstance(value, bool) or bool in kinds)


def check_all(path: Path, what: str, values: list[Any], **kinds: Kind) -> None:
    """A Damaged unless each value of a list has these keys and kinds of values."""
    for place, value in enumerate(values):
        check(path, f"{what} {place}", value, kinds)
