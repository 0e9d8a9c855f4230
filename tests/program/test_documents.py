"""What `prices`, `opening`, and `replay` print for good documents and for faulty ones."""
import json
from pathlib import Path
from typing import Any

import pytest

from tests.lib.paths import EXAMPLES, TOP
from tests.lib.runs import Run, run
from tests.program.documents import changed, example

SETUP = example("one_product.json")
SETUP_OF_VERSION_2 = example("granules_and_increments.json")
OPENING = example("opening.json")
OPENING_OF_VERSION_2 = {
    "setup": SETUP_OF_VERSION_2,
    "demands": [[0, 2], [2, 0], [0, 1]],
    "increment": 20,
}
REHEARSAL = example("rehearsal.json")
# The rehearsals of the documents. The report of each is in examples/ too.
REHEARSALS = ["rehearsal", "rehearsal_version_2"]

Faults = list[tuple[str, Any, str]]

# Faults of the set-up with one product: the path of the changed part, its new value, and the fault.
SETUP_FAULTS: Faults = [
    ("version", 3, "version"),
    ("requirement", "95", "shape"),
    ("requirement", 49, "range requirement"),
    ("operator", "short", "range operator"),
    ("products", [], "range products"),
    ("products 0 name", "", "range name 0"),
    ("products 0 units", 0, "range units 0"),
    ("products 0 supply", 1001, "range supply 0"),
    ("products 0 cap", 3, "range cap 0"),
    ("products 0 opening", 0, "range opening 0"),
    ("bidders", [], "range bidders"),
    ("bidders 1 name", "a b", "range bidder_name 1"),
    ("bidders 1 token", "YYYYYYYYYYYYYYY", "range token 1"),
    ("bidders 1 eligibility", 1_000_000_000_001, "range eligibility 1"),
    ("bidders 1 name", "X", "duplicate_name"),
    ("bidders 1 token", "OPERATOROPERATOR", "duplicate_token"),
    ("limit", 100, "shape"),
    ("products 0 granule", 1, "shape"),
]

# Faults of the set-up with granules.
SETUP_FAULTS_OF_VERSION_2: Faults = [
    ("version", 1, "shape"),
    ("limit", 99, "range limit"),
    ("limit", 141, "range limit"),
    ("products 1 granule", 0, "range granule 1"),
    ("products 1 granule", 1_000_001, "range granule 1"),
]

OPENING_FAULTS: Faults = [
    ("demands", [[1]], "shape"),
    ("setup requirement", 49, "setup_range requirement"),
    ("demands 0 0", 3, "demand 0 0"),
    ("demands 0 0", 1001, "demand 0 0"),
    ("demands 1 0", 65_536, "demand 1 0"),
    ("demands 0", [0] * 4097, "shape"),
    ("setup bidders 0 eligibility", 1, "activity 0"),
    ("increment", 51, "increment"),
    ("setup products 0 opening", 1_000_000_000_000, "price_limit 0"),
]

# Faults of the first rehearsal.
REPLAY_FAULTS: Faults = [
    ("closings", {}, "shape"),
    ("setup requirement", 49, "setup_range requirement"),
    ("scripts", [], "scripts"),
    ("scripts 0 limits", [], "shape"),
    ("scripts 3 limits 2", [450, 610], "limits 3 2"),
    ("scripts 2 sheets 0 1 quantity", 4, "refused 2 1 over_cap"),
    ("scripts 2 sheets 7 0 price", 1621, "refused 2 8 price_range"),
    ("closings 1 increment", 0, "closing 2 increment"),
    ("closings 7 ties 1", [2, 0, 3], "closing 8 tie_repeated"),
    ("closings", [{"increment": 10, "ties": []}], "closings_spent"),
]

NOT_JSON = {
    "empty": "",
    "spaces": " \n",
    "an-open-brace": "{",
    "not-UTF-8": b"\xff",
    "a-byte-order-mark": b"\xef\xbb\xbf{}",
}

# The arguments with which the program reads a set-up.
OF_SETUPS = pytest.mark.parametrize(
    "words", [[], ["prices"]], ids=["without-arguments", "with-prices"]
)
# The commands that read a document with a set-up in it.
OF_OTHERS = pytest.mark.parametrize("command", ["opening", "replay"])


def rows_of(faults: Faults) -> pytest.MarkDecorator:
    """A test's rows, one for each fault, each named for the changed part and the fault."""
    names = [f"{path}-{fault}".replace(" ", ".") for path, _value, fault in faults]
    return pytest.mark.parametrize(("path", "value", "fault"), faults, ids=names)


def refused(fault: str) -> Run:
    """How the program ends with a fault."""
    return Run(1, "", f"fault: {fault}\n")


# ---- Good documents


@pytest.mark.parametrize(
    "words",
    [[], ["prices"], ["prices", "--increment", "10"], ["prices", "--increment=10"]],
    ids=["nothing", "prices", "increment-10", "increment=10"],
)
def test_the_increment_is_ten_percent_unless_another_is_given(
    program: Path, words: list[str]
) -> None:
    edges = (EXAMPLES / "price_edges.json").read_text()
    lines = (TOP / "crates" / "clock_auction" / "stdout").read_text()
    assert run(program, *words, document=edges) == Run(0, lines, "")


def test_prices_rise_by_the_given_increment(program: Path) -> None:
    found = run(program, "prices", "--increment", "50", document=json.dumps(SETUP))
    assert found == Run(0, "A 100 150\n", "")


def test_prices_are_rounded_up_to_the_granule(program: Path) -> None:
    found = run(program, document=json.dumps(SETUP_OF_VERSION_2))
    assert found == Run(0, "A 100 125\nB 100 110\n", "")


@pytest.mark.parametrize(
    ("document", "lines"),
    [
        (json.dumps(OPENING), "A 100 100 100 3 110\n"),
        (json.dumps(OPENING_OF_VERSION_2), "A 100 100 100 - 125\nB 100 100 100 3 120\n"),
        (changed(OPENING, "demands 0 0", 1), "A 100 100 100 - -\n"),
    ],
    ids=["excess-demand", "granules-and-excess-demand-for-one-product", "no-excess-demand"],
)
def test_opening_prints_the_results_of_round_1(program: Path, document: str, lines: str) -> None:
    assert run(program, "opening", document=document) == Run(0, "round 1\n" + lines, "")


@pytest.mark.parametrize("name", REHEARSALS)
def test_replay_prints_the_report(program: Path, name: str) -> None:
    document = (EXAMPLES / f"{name}.json").read_text()
    report = (EXAMPLES / f"{name}.txt").read_text()
    assert run(program, "replay", document=document) == Run(0, report, "")


# ---- Faulty documents


@OF_SETUPS
@pytest.mark.parametrize("document", NOT_JSON.values(), ids=NOT_JSON)
def test_a_setup_that_is_not_json_is_refused(
    program: Path, words: list[str], document: str | bytes
) -> None:
    assert run(program, *words, document=document) == refused("setup_not_json")


@OF_SETUPS
def test_a_setup_that_is_not_an_object_is_refused(program: Path, words: list[str]) -> None:
    assert run(program, *words, document="[]") == refused("setup_shape")


@OF_SETUPS
@rows_of(SETUP_FAULTS)
def test_a_faulty_setup_is_refused(
    program: Path, words: list[str], path: str, value: object, fault: str
) -> None:
    assert run(program, *words, document=changed(SETUP, path, value)) == refused(f"setup_{fault}")


@OF_SETUPS
@rows_of(SETUP_FAULTS_OF_VERSION_2)
def test_a_faulty_setup_of_version_2_is_refused(
    program: Path, words: list[str], path: str, value: object, fault: str
) -> None:
    document = changed(SETUP_OF_VERSION_2, path, value)
    assert run(program, *words, document=document) == refused(f"setup_{fault}")


@OF_OTHERS
@pytest.mark.parametrize(
    "document", ["", "{", "[1"], ids=["empty", "an-open-brace", "an-open-list"]
)
def test_a_document_that_is_not_json_is_refused(program: Path, command: str, document: str) -> None:
    assert run(program, command, document=document) == refused("not_json")


def test_an_opening_that_is_not_an_object_is_refused(program: Path) -> None:
    assert run(program, "opening", document="[]") == refused("shape")


@rows_of(OPENING_FAULTS)
def test_a_faulty_opening_is_refused(program: Path, path: str, value: object, fault: str) -> None:
    assert run(program, "opening", document=changed(OPENING, path, value)) == refused(fault)


@rows_of(REPLAY_FAULTS)
def test_a_faulty_rehearsal_is_refused(program: Path, path: str, value: object, fault: str) -> None:
    assert run(program, "replay", document=changed(REHEARSAL, path, value)) == refused(fault)
