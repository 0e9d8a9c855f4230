"""The descriptions of the two ports, and which values fit a schema."""
import json
from collections.abc import Iterator
from typing import Any, NamedTuple

from jsonschema import Draft202012Validator

from auction.explain.schemas import schema, written_out
from tests.lib.paths import TOP

FILES = sorted(
    file.name for file in (TOP / "schemas").glob("*.json") if file.name != "openapi.json"
)
SERVER = json.loads((TOP / "schemas" / "server.json").read_text())
OTHER = "/{other}"  # any path that is not listed


class Entry(NamedTuple):
    """A status and a code with which a route answers a method. Only a refusal has a code."""

    method: str
    route: str
    status: int
    code: str


def validator(file: str, pointer: str = "") -> Draft202012Validator:
    """A validator of a file's schema, or of a part of it."""
    return Draft202012Validator(schema(file, pointer))


DOCUMENTS = {
    name: validator(f"{name}.schema.json")
    for name in ("setup", "opening", "replay", "sheet", "closing")
}


def responses() -> Iterator[tuple[str, str, int, Any]]:
    """Yields each response of server.json with its method, route, and status."""
    items = {**SERVER["paths"], OTHER: SERVER["components"]["pathItems"]["other"]}
    for route, item in items.items():
        for method in item.keys() - {"parameters"}:
            for status, response in item[method]["responses"].items():
                yield method.upper(), route, int(status), written_out(response, "server.json")


def page_of(response: Any) -> Any:
    """The schema of a response's page."""
    return response["content"]["application/json"]["schema"]


def entries() -> set[Entry]:
    """All statuses and codes of server.json."""
    return {
        Entry(method, route, status, code)
        for method, route, status, response in responses()
        for code in page_of(response).get("properties", {}).get("code", {}).get("enum", [""])
    }


PAGES = {
    (method, route, status): Draft202012Validator(page_of(response))
    for method, route, status, response in responses()
}


def is_described(method: str, route: str, status: int, page: str) -> bool:
    """Whether server.json has a reply's status for its route, and a page like this one."""
    found = PAGES.get((method, route, status))
    return found is not None and found.is_valid(json.loads(page))


def examples(value: Any) -> Iterator[Any]:
    """Yields the values of all examples in a description."""
    if isinstance(value, list):
        for part in value:
            yield from examples(part)
    elif isinstance(value, dict):
        for key, part in value.items():
            found = key == "examples"
            yield from (one["value"] for one in part.values()) if found else examples(part)
