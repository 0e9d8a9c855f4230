"""How sources are laid out, and what Debian's readers of code find in them."""
import ast
import pathlib
import re
import subprocess
from collections.abc import Iterator

import pytest

from tests.lib.paths import TOP
from tools import documents, edits

pytestmark = pytest.mark.early

PYTHON = "/usr/bin/python3"
MOST_LINES = 40  # of a function
MOST_COLUMNS = 100
MOST_COLUMNS_OF_PROOFS = 120
TYPED = ("auction", "tests/lib", "tests/conftest.py", "tools")
HELP = "crates/clock_console/src/help.rt"
SERVICES = (".conf", ".nft", ".service")

FILES = [name for name in documents.tracked(TOP) if not name.startswith("crates/")]
EDITS_IN_GATE = edits.edits(TOP, edits.IN_GATE)
EDITS = EDITS_IN_GATE + edits.edits(TOP, edits.BEFORE_RELEASE)
FOR_TESTS = {"clock_fixtures", "clock_rules_tests", "clock_server_tests", "clock_program_tests"}


def is_script_of(interpreter: str, name: str) -> bool:
    """Whether a file without an ending begins with this interpreter's line."""
    if pathlib.PurePath(name).suffix:
        return False
    first = (TOP / name).read_bytes().partition(b"\n")[0].decode(errors="replace")
    return first.startswith("#!") and first.endswith(interpreter)


PYTHON_FILES = [n for n in FILES if n.endswith(".py") or is_script_of("python3", n)]
SHELL_FILES = [n for n in FILES if n.endswith(".sh") or is_script_of("bash", n)]


def findings(*command: object) -> str:
    """What a command prints if it ends with another status than 0."""
    words = list(map(str, command))
    ran = subprocess.run(words, cwd=TOP, capture_output=True, text=True, timeout=280)
    said = ran.stdout + ran.stderr
    return said or f"{words[0]} ended with status {ran.returncode}" if ran.returncode else ""


@pytest.mark.needs("black")
def test_black_changes_nothing() -> None:
    assert not findings("/usr/bin/black", "--check", *PYTHON_FILES)


@pytest.mark.needs("flake8")
def test_flake8_finds_nothing() -> None:
    assert not findings(PYTHON, "-m", "flake8", *PYTHON_FILES)


@pytest.mark.needs("mypy")
def test_types_are_right() -> None:
    assert not findings(PYTHON, "-m", "mypy", "--cache-dir=/dev/null", *TYPED)


@pytest.mark.needs("shellcheck")
def test_shellcheck_finds_nothing() -> None:
    assert not findings("shellcheck", "--format=gcc", *SHELL_FILES)


def long_functions(name: str) -> Iterator[str]:
    for node in ast.walk(ast.parse((TOP / name).read_text())):
        if isinstance(node, ast.FunctionDef | ast.AsyncFunctionDef):
            lines = (node.end_lineno or 0) - node.lineno + 1
            if lines > MOST_LINES:
                yield f"{name}:{node.lineno}: {node.name} has {lines} lines"


def test_functions_of_python_are_short() -> None:
    assert not [line for name in PYTHON_FILES for line in long_functions(name)]


def wide_lines(name: str, most: int, mark: str = "") -> Iterator[str]:
    for number, line in enumerate((TOP / name).read_text().splitlines(), 1):
        if len(line) > most and mark in line:
            yield f"{name}:{number}: {len(line)} columns"


def test_lines_of_crates_are_not_wide() -> None:
    """A line with a string or an attribute, and a line of the help, cannot be broken."""
    found = []
    for name in documents.tracked(TOP, "crates/*.rt", "crates/*.antt"):
        most = MOST_COLUMNS_OF_PROOFS if "/proofs/" in name else MOST_COLUMNS
        lines = (TOP / name).read_text().splitlines() if name != HELP else []
        breakable = [line for line in lines if '"' not in line and "#[" not in line]
        found += [f"{name}: {line}" for line in breakable if len(line) > most]
    assert not found


def test_fences_in_comments_of_crates_have_lines_of_their_own() -> None:
    """A code block that was filled like prose shows nobody where its lines end."""
    fence = re.compile(r"\s*//[/!] ```\w*$")
    assert not [
        f"{name}:{number}"
        for name in documents.tracked(TOP, "crates/*.rt")
        for number, line in enumerate((TOP / name).read_text().splitlines(), 1)
        if "```" in line and not fence.match(line)
    ]


def test_each_crate_of_the_program_has_a_wrong_body_in_the_gate() -> None:
    crates = {path.name for path in (TOP / "crates").iterdir() if path.name not in FOR_TESTS}
    assert crates - {edits.crate_of(edit) for edit in EDITS_IN_GATE} == set()


def test_lines_of_pages_and_shell_are_not_wide() -> None:
    pages = [n for n in FILES if n.endswith((".js", ".mjs", ".css", ".html"))]
    assert not [line for name in pages + SHELL_FILES for line in wide_lines(name, MOST_COLUMNS)]


def test_comments_of_services_are_not_wide() -> None:
    services = [name for name in FILES if name.endswith(SERVICES)]
    assert not [line for name in services for line in wide_lines(name, MOST_COLUMNS, "#")]


@pytest.mark.parametrize("edit", EDITS)
def test_wrong_body_applies(edit: str) -> None:
    """Its old texts are exactly once in the file that it names."""
    assert not edits.fault(TOP, edit)
