"""What the schema of a document finds in it, in words."""
import functools
from collections.abc import Iterator
from typing import Any

from jsonschema import Draft202012Validator, ValidationError, validators

from auction.explain.reading import Path
from auction.explain.schemas import schema

Fault = tuple[Path, str, str | None]  # a path, words, and the key of an object at fault

KINDS = {
    "object": "an object",
    "array": "a list",
    "string": "a text",
    "integer": "a whole number from 0 to 18446744073709551615, in digits only",
}


def items(validator: Any, rules: Any, value: Any, whole: Any) -> Iterator[ValidationError]:
    """Checks the entries of a list. First it compares a list of whole numbers at once."""
    is_list = rules.get("type") == "integer" and type(value) is list and value
    if is_list and set(map(type, value)) == {int}:
        if rules["minimum"] <= min(value) and max(value) <= rules["maximum"]:
            return
    yield from Draft202012Validator.VALIDATORS["items"](validator, rules, value, whole)


Validator = validators.extend(Draft202012Validator, {"items": items})


@functools.cache
def validator(kind: str) -> Any:
    """The validator of a kind of document."""
    return Validator(schema(f"{kind}.schema.json"))


def words_of(error: ValidationError) -> str:
    """Words for an error of one part."""
    keyword, value, rules = error.validator, error.instance, error.schema
    if keyword == "type":
        return f"expected {KINDS[error.validator_value]}"
    if keyword in ("minimum", "maximum"):
        return f"{value} is outside {rules.get('minimum', 0):,} to {rules['maximum']:,}"
    if keyword in ("minItems", "maxItems"):
        most = rules["maxItems"]
        return f"{len(value):,} entries; expected {rules.get('minItems', 0):,} to {most:,}"
    if keyword == "oneOf":
        keys = " and ".join(one["required"][0] for one in error.validator_value)
        return f"expected one of the keys {keys}"
    if "description" in rules:
        return f"{value!r:.70} is wrong: {rules['description']}"
    return error.message[:90]


def parts_of(error: ValidationError) -> Iterator[ValidationError]:
    """The errors of the parts of a value that could also be null, or the error itself."""
    if error.validator != "anyOf":
        yield error
        return
    for part in error.context:
        if error.instance is None or part.validator_value != "null":
            yield from parts_of(part)


def faults_of(error: ValidationError) -> Iterator[Fault]:
    """The faults of an error: one for each key that is missing or unknown."""
    path, value = tuple(error.absolute_path), error.instance
    if error.validator == "required":
        missing = [key for key in error.validator_value if key not in value]
        yield from ((path, f'the key "{key}" is missing', None) for key in missing)
    elif error.validator == "additionalProperties":
        unknown = [key for key in value if key not in error.schema["properties"]]
        yield from ((path, f'unknown key "{key}"', key) for key in unknown)
    else:
        yield path, words_of(error), None


def faults(kind: str, value: Any) -> list[Fault]:
    """The faults of the form of a document, each once. A part of a wrong type has no other."""
    errors = [part for error in validator(kind).iter_errors(value) for part in parts_of(error)]
    others = {tuple(error.absolute_path) for error in errors if error.validator == "type"}
    shown = (
        error
        for error in errors
        if error.validator == "type" or tuple(error.absolute_path) not in others
    )
    return list(dict.fromkeys(fault for error in shown for fault in faults_of(error)))
