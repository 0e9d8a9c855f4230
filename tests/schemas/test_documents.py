"""A document fits its schema exactly if the program accepts it, but for a list of exceptions."""
import json
import pathlib
import re
from random import Random
from typing import Any, NamedTuple

import pytest

from tests.lib.commands import COMMANDS, Command, run
from tests.lib.http import compact
from tests.lib.keys import with_another_key, without_a_key
from tests.lib.mutations import changed_document
from tests.lib.paths import EXAMPLES, TOP
from tests.schemas import exceptions
from tests.schemas.described import DOCUMENTS
from tests.schemas.exceptions import exception_of, value_of

MUTATED = 500  # For each command.
# Faults that are reported after the shape and the ranges were found to be right.
PLAYED = re.compile(
    r"refused |closing |closings_spent|price_limit|demand |activity|scripts|limits |setup_duplicate"
)
SETUP_SHAPE = b"fault: setup_shape\n"
EXAMPLE = [(command, name) for command in COMMANDS for name in command.examples]


class Judged(NamedTuple):
    """A document, the program's fault or nothing, and whether it is JSON and fits the schema.

    The exception has words if the schema cannot say why the program refuses the document.
    """

    text: bytes
    fault: str
    is_json: bool
    fits: bool
    exception: str | None

    @property
    def is_accepted(self) -> bool:
        """Whether the program found shape and ranges right."""
        return not self.fault or (PLAYED.match(self.fault) is not None and not self.exception)


def judged(program: pathlib.Path, command: Command, text: bytes) -> Judged:
    """A document that was judged by the program."""
    ended = run(program, command.word, text)
    fault = ended.error.decode().removeprefix("fault: ").strip()
    try:
        value = value_of(text)
    except ValueError:
        return Judged(text, fault, False, False, None)
    fits = DOCUMENTS[command.kind].is_valid(value)
    has_shape = fits or PLAYED.match(fault)
    exception = exception_of(command.kind, value, text, fault) if fault and has_shape else None
    return Judged(text, fault, True, fits, exception)


def test_examples_are_all_tried() -> None:
    assert {name for _, name in EXAMPLE} == {file.stem for file in EXAMPLES.glob("*.json")}


@pytest.mark.parametrize(("command", "name"), EXAMPLE, ids=[name for _, name in EXAMPLE])
def test_example_is_accepted_and_fits(program: pathlib.Path, command: Command, name: str) -> None:
    text = (EXAMPLES / f"{name}.json").read_bytes()
    assert run(program, command.word, text).status == 0
    assert DOCUMENTS[command.kind].is_valid(json.loads(text))


@pytest.fixture(scope="module", params=COMMANDS, ids=[command.word for command in COMMANDS])
def mutated(program: pathlib.Path, request: pytest.FixtureRequest) -> tuple[Command, list[Judged]]:
    """Mutated documents of a command."""
    command: Command = request.param
    chance, goods = Random(f"schemas {command.word}"), command.values()
    texts = [changed_document(chance, goods[number % len(goods)]) for number in range(MUTATED)]
    return command, [judged(program, command, text) for text in texts]


Mutated = tuple[Command, list[Judged]]


def test_text_that_is_no_json_is_refused_as_such(mutated: Mutated) -> None:
    command, documents = mutated
    code = "setup_not_json" if command.kind == "setup" else "not_json"
    texts = [one for one in documents if not one.is_json]
    assert [one for one in texts if one.fault != code] == []
    assert len(texts) >= 20


def test_accepted_document_fits(mutated: Mutated) -> None:
    accepted = [one for one in mutated[1] if one.is_json and one.is_accepted]
    assert [one for one in accepted if not one.fits] == []
    assert len(accepted) >= 25


def test_refused_document_does_not_fit(mutated: Mutated) -> None:
    refused = [one for one in mutated[1] if one.is_json and not one.is_accepted]
    assert [one for one in refused if one.fits and not one.exception] == []
    assert len(refused) >= 150


KEYS = [
    pytest.param(command, value, id=f"{command.word}-{name}-{change.__name__}-{key}")
    for command in COMMANDS
    for name in command.examples
    for change in (without_a_key, with_another_key)
    for key, value in change(json.loads((EXAMPLES / f"{name}.json").read_text()))
]


@pytest.mark.parametrize(("command", "value"), KEYS)
def test_document_with_other_keys_is_refused_and_does_not_fit(
    program: pathlib.Path, command: Command, value: Any
) -> None:
    assert run(program, command.word, compact(value)).error in (b"fault: shape\n", SETUP_SHAPE)
    assert not DOCUMENTS[command.kind].is_valid(value)


def test_exceptions_are_those_that_schemas_readme_lists() -> None:
    text = (TOP / "schemas" / "README.md").read_text()
    assert set(re.findall(r"^- \*\*(.+?)\*\*", text, re.M)) == exceptions.ALL
