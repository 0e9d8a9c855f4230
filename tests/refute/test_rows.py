"""Each row of "What would refute it" in docs/proof.md says who tries it."""
import re

import pytest

from tests.lib.paths import TOP

pytestmark = pytest.mark.early
TEXT = (TOP / "docs/proof.md").read_text()
SECTION = TEXT.partition("## What would refute it\n")[2].partition("\n## ")[0]
ROWS = [line.strip("| ").split(" | ") for line in SECTION.splitlines() if line.startswith("|")][2:]
# What only the prover or the gate can try.
BY_OTHERS = ("rt check", "rt doc", "`specs/`", "bash .ci/run")


def test_there_are_rows() -> None:
    assert len(ROWS) >= 10


@pytest.mark.parametrize("row", ROWS, ids=[row[1][:60] for row in ROWS])
def test_a_row_names_a_test_that_tries_it_or_who_else_can(row: list[str]) -> None:
    modules = re.findall(r"`(tests/refute/[a-z_]+\.py)`", row[2])
    assert modules or any(words in row[2] for words in BY_OTHERS), row
    for module in modules:
        text = (TOP / module).read_text()
        assert "def test_a_planted_" in text, module
