"""`tools/bundle` builds the description of the bidders' port from the schemas and nginx.conf."""
import json
import pathlib
import shutil
import subprocess
from typing import Any

import pytest
from jsonschema import Draft202012Validator

from tests.lib.paths import TOP
from tests.schemas.described import SERVER, examples
from tests.schemas.port import built

pytestmark = pytest.mark.early

# The bidders' port as docs/formats.md has it.
PAGES = {
    "/v1/status",
    "/v1/products",
    "/v1/rounds/{n}",
    "/v1/me",
    "/v1/me/bids",
    "/v1/me/rounds/{n}",
}
FILES = {"commitment", "draw", "names", "timetable", "announcements", "winners", "rounds/{n}"}
OTHERS = {"/receipts/{n}/{sheet}.json", "/openapi.json"}
# Requests, in a number of seconds, more at once, and at the same time.
LIMITS = {
    "anyone": (20, 1, 60, 16),
    "bidder": (2, 1, 60, 8),
    "large_sheets": (6, 60, 20, None),
    "public": (100, 1, 200, 16),
    "small_files": (400, 1, 6_000, 1_000),
}


@pytest.fixture(scope="module")
def description(tmp_path_factory: pytest.TempPathFactory) -> Any:
    return built(tmp_path_factory.mktemp("bundle") / "openapi.json")


def with_null(value: Any) -> Any:
    """A schema of OpenAPI 3.0 as one of 2020-12, in which `nullable` is another type."""
    if isinstance(value, list):
        return [with_null(part) for part in value]
    if not isinstance(value, dict):
        return value
    made = {key: with_null(part) for key, part in value.items() if key != "nullable"}
    return {"anyOf": [{"type": "null"}, made]} if value.get("nullable") else made


def validator(description: Any, schema: Any) -> Draft202012Validator:
    """A validator of a part of the description."""
    whole = {"allOf": [schema], "components": description["components"]}
    return Draft202012Validator(with_null(whole))


def test_bundle_without_a_file_writes_openapi_json_into_schemas(tmp_path: pathlib.Path) -> None:
    for name in ("schemas", "services", "tools"):
        (tmp_path / name).mkdir()
    for file in (TOP / "schemas").glob("*.json"):
        if file.name != "openapi.json":
            shutil.copy(file, tmp_path / "schemas")
    shutil.copy(TOP / "services/nginx.conf", tmp_path / "services")
    shutil.copy(TOP / "tools/bundle", tmp_path / "tools")
    subprocess.run([tmp_path / "tools/bundle"], check=True, timeout=60)
    assert json.loads((tmp_path / "schemas/openapi.json").read_text())["openapi"] == "3.0.3"


def test_paths_are_those_of_the_bidders_port(description: Any) -> None:
    assert set(description["paths"]) == PAGES | {f"/public/{name}.json" for name in FILES} | OTHERS


@pytest.mark.parametrize("name", LIMITS)
def test_limit_is_that_of_the_formats(description: Any, name: str) -> None:
    keys = ("requests", "in_seconds", "more_at_once", "at_the_same_time")
    assert tuple(map(description["x-limits"][name].get, keys)) == LIMITS[name]


def test_limits_are_no_others(description: Any) -> None:
    assert set(description["x-limits"]) == set(LIMITS)


@pytest.mark.parametrize("path", sorted(PAGES))
def test_each_example_of_the_server_fits_its_page(description: Any, path: str) -> None:
    answered = SERVER["paths"][path]["get"]["responses"]["200"]
    page = description["paths"][path]["get"]["responses"]["200"]["content"]["application/json"]
    shown, fits = list(examples(answered)), validator(description, page["schema"])
    assert shown and all(map(fits.is_valid, shown))
    assert not any(fits.is_valid({**one, "other": 1}) for one in shown)


def test_each_example_of_a_sheet_fits_its_body(description: Any) -> None:
    shown = list(examples(SERVER["paths"]["/v1/me/bids"]["put"]["requestBody"]))
    body = description["paths"]["/v1/me/bids"]["put"]["requestBody"]["content"]["application/json"]
    fits = validator(description, body["schema"])
    assert shown and all(map(fits.is_valid, shown))
    assert not fits.is_valid({"bids": [], "round": 0})


def test_each_refusal_of_a_sheet_by_the_server_is_described(description: Any) -> None:
    response = SERVER["components"]["responses"]["refused_sheet"]
    codes = response["content"]["application/json"]["schema"]["properties"]["code"]["enum"]
    assert description["components"]["responses"]["refused_sheet"]["x-codes"] == codes


def test_each_fault_of_a_bid_is_explained(description: Any) -> None:
    response = description["components"]["responses"]["refused_sheet"]
    for code in response["x-codes"]:
        assert f"{code} (" in response["description"], code
    assert "keep_price (the quantity is the processed demand" in response["description"]


def test_both_descriptions_name_a_document_that_the_package_has(description: Any) -> None:
    for value in (description, SERVER):
        url = value["externalDocs"]["url"]
        name = url.removeprefix("file:///usr/share/doc/clock-auction/")
        assert (TOP / name).is_file(), url
