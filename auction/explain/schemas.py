"""The schemas of the formats, with everything that they refer to written out."""
import functools
import json
from typing import Any

from auction.installed import installed

LEFT_OUT = ("$id", "$schema", "$defs")


@functools.cache
def content(file: str) -> Any:
    """The value of a file of the schemas."""
    return json.loads(installed(f"schemas/{file}").read_text(encoding="utf-8"))


def schema(file: str, pointer: str = "") -> Any:
    """A file's schema, or the part to which a pointer such as `/$defs/price` leads."""
    value = content(file)
    for step in filter(None, pointer.split("/")):
        value = value[step]
    return written_out(value, file)


def written_out(value: Any, file: str) -> Any:
    """A part of a file with its references replaced by their targets. None leads to itself."""
    if isinstance(value, list):
        return [written_out(part, file) for part in value]
    if not isinstance(value, dict):
        return value
    made = {key: written_out(part, file) for key, part in value.items() if key not in LEFT_OUT}
    if not isinstance(reference := made.pop("$ref", None), str):
        return made
    other, _, pointer = reference.partition("#")
    target = schema(other or file, pointer)
    return {**target, **made} if made.keys() <= {"description"} else {**made, "allOf": [target]}
