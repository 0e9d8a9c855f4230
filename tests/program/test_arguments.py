"""Invalid arguments, the version, and what the program then prints on standard error."""
import json
from pathlib import Path

import pytest

from tests.lib.runs import Run, run
from tests.program.documents import example

SETUP = json.dumps(example("one_product.json"))
SERVE = ["serve", "--setup", "set-up.json"]
USAGE = "Usage: clock_auction <COMMAND>"
SERVE_USAGE = "Usage: clock_auction serve --setup <FILE> --port <N> --connections <N>"
TRY_HELP = "For more information, try '--help'."


def error(*parts: str) -> str:
    """An error of arguments, of these parts."""
    return "\n\n".join(["error: " + parts[0], *parts[1:], TRY_HELP]) + "\n"


INVALID = {
    "increment-below-1": (
        ["prices", "--increment", "0"],
        error("invalid value '0' for '--increment <N>': 0 is not in 1..=50"),
    ),
    "increment-above-50": (
        ["prices", "--increment=51"],
        error("invalid value '51' for '--increment <N>': 51 is not in 1..=50"),
    ),
    "increment-without-a-value": (
        ["prices", "--increment"],
        error("a value is required for '--increment <N>' but none was supplied"),
    ),
    "unknown-command": (["sell"], error("unrecognized subcommand 'sell'", USAGE)),
    "option-without-a-command": (
        ["--increment", "10"],
        error("unexpected argument '--increment' found", USAGE),
    ),
    "no-connections": (
        [*SERVE, "--port", "8105", "--connections", "0"],
        error("invalid value '0' for '--connections <N>': 0 is not in 1..=1000000"),
    ),
    "port-above-65535": (
        [*SERVE, "--port", "65536", "--connections", "1"],
        error("invalid value '65536' for '--port <N>': 65536 is not in 1..=65535"),
    ),
    "connections-missing": (
        [*SERVE, "--port", "8105"],
        error(
            "the following required arguments were not provided:\n  --connections <N>", SERVE_USAGE
        ),
    ),
    "option-of-another-command": (
        ["opening", "--increment", "10"],
        error("unexpected argument '--increment' found", "Usage: clock_auction opening"),
    ),
    "not-UTF-8": ([b"\xff"], "error: a word is not UTF-8\n"),
}


def test_the_version_is_printed_on_standard_error(program: Path) -> None:
    assert run(program, "--version", document=SETUP) == Run(2, "", "clock_auction 0.1.0\n")


@pytest.mark.parametrize(("words", "text"), INVALID.values(), ids=INVALID)
def test_invalid_arguments_are_refused(program: Path, words: list[str | bytes], text: str) -> None:
    assert run(program, *words, document=SETUP) == Run(2, "", text)
