"""The help of the program and of each command, which help/ has, and the examples in it.

The program prints help on standard error, with status 2.
"""
import json
import re
import shlex
from collections.abc import Callable
from pathlib import Path

import pytest

from tests.lib.http import answer_to, text_of
from tests.lib.paths import EXAMPLES, TOP
from tests.lib.runs import Run, run
from tests.lib.server import Server
from tests.program.documents import example

HELP = Path(__file__).parent / "help"
SETUP = json.dumps(example("one_product.json"))
COMMANDS = ["prices", "opening", "replay", "serve", "journal", "audit"]

# Round 1 of the auction that the examples of `journal` and `audit` show.
ROUND = [
    text_of(
        "PUT /v1/me/bids", "X" * 16, b'{"bids":[{"price":100,"product":0,"quantity":2}],"round":1}'
    ),
    text_of(
        "PUT /v1/me/bids", "Y" * 16, b'{"bids":[{"price":100,"product":0,"quantity":1}],"round":1}'
    ),
    text_of("POST /v1/close", "OPERATOROPERATOR", b'{"increment":10,"round":1,"ties":[]}'),
]


def help_of(name: str) -> str:
    """The help of the program or of a command."""
    return (HELP / f"{name}.txt").read_text()


def example_of(command: str) -> list[str]:
    """The example in the help of a command: a command, and the lines that it prints."""
    text = help_of(command).split("Example:\n")[1]
    return re.sub("^  ", "", text, flags=re.MULTILINE).splitlines()


def agrees(shown: list[str], printed: list[str]) -> bool:
    """Whether the printed lines are those of an example.

    In the example, a line `..` stands for any number of lines, and `..` at a line's end for any
    words.
    """
    if not shown:
        return not printed
    if shown[0] == "..":
        return any(agrees(shown[1:], printed[start:]) for start in range(len(printed) + 1))
    if not printed:
        return False
    is_prefix = shown[0].endswith("..") and printed[0].startswith(shown[0][:-2])
    return (is_prefix or printed[0] == shown[0]) and agrees(shown[1:], printed[1:])


def test_each_command_has_its_help_here() -> None:
    lines = help_of("clock_auction").split("Commands:\n")[1].split("\n\n")[0].splitlines()
    assert [line.split()[0] for line in lines] == [*COMMANDS, "help"]
    assert {file.stem for file in HELP.iterdir()} == {"clock_auction", *COMMANDS}


@pytest.mark.parametrize("word", ["--help", "-h", "help"])
def test_help_of_the_program(program: Path, word: str) -> None:
    assert run(program, word, document=SETUP) == Run(2, "", help_of("clock_auction"))


@pytest.mark.parametrize("command", COMMANDS)
@pytest.mark.parametrize("words", ["{} --help", "{} -h", "help {}"])
def test_help_of_a_command(program: Path, words: str, command: str) -> None:
    found = run(program, *words.format(command).split(), document=SETUP)
    assert found == Run(2, "", help_of(command))


@pytest.fixture(scope="module")
def journal(program: Path, tmp_path_factory: pytest.TempPathFactory) -> Path:
    """The journal of the examples."""
    file = tmp_path_factory.mktemp("journal") / "auction.journal"
    with Server(program, EXAMPLES / "one_product.json", file, connections=len(ROUND)) as server:
        statuses = [answer_to(server.port, text)[0] for text in ROUND]
        assert (statuses, server.ended()) == ([200] * len(ROUND), (0, ""))
    return file


@pytest.mark.parametrize("command", [name for name in COMMANDS if name != "serve"])
def test_the_example_of_a_command_prints_what_its_help_shows(
    program: Path, journal: Path, command: str
) -> None:
    line, *shown = example_of(command)
    typed = line.replace("clock_auction", shlex.quote(str(program)), 1)
    printed = run("bash", "-c", typed.replace("auction.journal", str(journal)), cwd=TOP)
    assert agrees(shown, printed.output.splitlines()), printed


def test_the_example_of_serve_prints_what_its_help_shows(server: Callable[..., Server]) -> None:
    line, *shown = example_of("serve")
    form = r"clock_auction serve --setup (\S+) --port (\d+) --connections (\d+)"
    match = re.fullmatch(form, line)
    assert match, line
    setup, port, connections = match.groups()
    started = server(TOP / setup, connections=int(connections))
    # Port 8105 may be in use, so the server has another.
    assert [printed.replace(str(started.port), port) for printed in started.lines] == shown
