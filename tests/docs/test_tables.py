"""Tables of the documents: codes of refusals, definitions, and what a command line may show."""
import json
import pathlib
import re
from collections.abc import Iterator

import pytest

from auction.commands import take_over
from tests.docs.texts import text_of
from tests.lib.documents import typed_lines
from tests.lib.paths import TOP

pytestmark = pytest.mark.early

Code = tuple[str, str]  # a code and its status
ROW = re.compile(r"^\| `([a-z_]+)` \| (\d{3}) \|", re.M)


def codes_of_nginx(openapi: pathlib.Path) -> Iterator[Code]:
    """The codes of nginx's port with their statuses."""
    value = json.loads(openapi.read_text())
    responses = value["components"]["responses"]
    for item in value["paths"].values():
        for method in item.keys() & {"get", "put"}:
            for status, response in item[method]["responses"].items():
                name = response.get("$ref", "").rpartition("/")[2]
                for code in responses.get(name, {}).get("x-codes", []):
                    yield code, status


def codes_of_server() -> dict[str, set[Code]]:
    """The codes of the server's refusals with their statuses, by who asks."""
    value = json.loads((TOP / "schemas/server.json").read_text())
    found: dict[str, set[Code]] = {"public": set(), "bidder": set(), "operator": set()}
    for item in value["paths"].values():
        for method in item.keys() - {"parameters"}:
            tag = item[method].get("tags", ["public"])[0]
            for status, response in item[method]["responses"].items():
                if "$ref" in response:
                    name = response["$ref"].rpartition("/")[2]
                    refusal = value["components"]["responses"][name]
                    schema = refusal["content"]["application/json"]["schema"]
                    found[tag] |= {(code, status) for code in schema["properties"]["code"]["enum"]}
    return found


def codes_in(name: str) -> list[Code]:
    return [(code, status) for code, status in ROW.findall(text_of(name))]


def test_bidders_guide_lists_each_code_that_a_bidder_can_get(openapi: pathlib.Path) -> None:
    server = codes_of_server()
    of_nginx = {row for row in codes_of_nginx(openapi) if row[0] != "proxy"}
    assert sorted(codes_in("bidders.md")) == sorted(server["public"] | server["bidder"] | of_nginx)


def test_the_reference_lists_only_codes_of_closings() -> None:
    assert not set(codes_in("deployment.md")) - codes_of_server()["operator"]


def test_each_code_of_a_closing_is_in_a_document() -> None:
    known = {*codes_in("deployment.md"), *codes_in("bidders.md")}
    assert not codes_of_server()["operator"] - known


def test_bidders_card_lists_codes_of_its_guide() -> None:
    card = re.findall(r"^\| `([a-z_]+)` \|", text_of("card-bidder.md"), re.M)
    assert len(card) == 11
    assert not set(card) - dict(codes_in("bidders.md")).keys()


def test_what_the_page_says_on_the_clerks_card_is_what_it_says() -> None:
    said = re.findall(r"^\| \*([^*]+)\* \|", text_of("card-clerk.md"), re.M)
    pages = " ".join(path.read_text() for path in sorted((TOP / "web").glob("*.js")))
    assert len(said) == 12
    assert [words for words in said if words not in pages] == []


def test_definitions_that_glossary_and_rules_name_exist() -> None:
    begins = r"(?m)^ *(?:abbrev |unfoldable )?(?:pub )?(?:record |data |mod )?(\w+)"
    files = TOP.glob("crates/*/specs/**/*.antt")
    known = {name for file in files for name in re.findall(begins, file.read_text())}
    texts = text_of("glossary.md") + text_of("rules.md")
    cells = re.findall(r"\((`\w+`(?:, `\w+`)*)\)", texts)
    named = {name for cell in cells for name in re.findall(r"`(\w+)`", cell)}
    assert len(named) > 50
    assert not named - known


def test_take_over_starts_each_unit_that_the_operators_guide_starts() -> None:
    typed = [line for line, _ in typed_lines(text_of("operators.md")) if "enable --now" in line]
    assert len(typed) == 1
    assert set(take_over.START.split()) == set(typed[0].split())


def test_no_command_of_the_auditors_stores_an_error_page() -> None:
    typed = [line for line, _ in typed_lines(text_of("auditors.md"))]
    stored = [line for line in typed if line.startswith("curl ")]
    assert len(stored) == 5
    assert [line for line in stored if " -f " not in line] == []


def test_limits_of_the_bidders_guide_fit_its_example() -> None:
    found = re.findall(r'`(\{"A":\[[^`]*\})`', text_of("bidders.md"))
    assert len(found) == 1
    limits = json.loads(found[0])
    setup = json.loads((TOP / "examples/two_products.json").read_text())
    units = sum(
        product["units"] * sum(limit >= product["opening"] for limit in limits[product["name"]])
        for product in setup["products"]
    )
    bidder = next(one for one in setup["bidders"] if one["name"] == "X")
    assert 0 < units <= bidder["eligibility"]


@pytest.mark.parametrize(
    "name", ["operators.md", "card-operator.md", "deployment.md", "bidders.md"]
)
def test_no_command_line_shows_a_token(name: str) -> None:
    lines = [line for line, _ in typed_lines(text_of(name))]
    assert not [line for line in lines if re.search(r"Bearer \w|[A-Z0-9]{16}", line)]
