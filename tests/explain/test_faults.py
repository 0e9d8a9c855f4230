"""`auction explain` finds an error exactly if the program refuses, and finds it at its place."""
import json
import pathlib
from collections.abc import Callable
from typing import Any

import pytest

from auction.explain.faults import explained, found_in
from tests.explain import bodies, cases
from tests.explain.bodies import Body
from tests.explain.cases import Change, Fault, Mistake, Path
from tests.explain.judged import judged
from tests.lib.http import answer_to, compact
from tests.lib.keys import with_another_key, without_a_key
from tests.lib.mutated_requests import request
from tests.lib.paths import EXAMPLES
from tests.lib.server import Server

WHOLE = cases.example("one_product")
SECOND_REPLAY = ("replay", json.loads(cases.example("rehearsal_version_2")))


def path_of(line: str) -> str:
    """The path that a printed line shows."""
    return line.split(": ")[1]


def shown(path: Path) -> str:
    """How a path is printed."""
    return "".join(f"[{step}]" if isinstance(step, int) else f".{step}" for step in path) or "."


@pytest.mark.parametrize("fault", cases.FAULTS, ids=lambda fault: fault.words)
def test_fault_has_the_programs_line_and_its_place(program: pathlib.Path, fault: Fault) -> None:
    text = fault.change.text()
    assert judged(program, fault.change.kind, text).agrees
    lines, has_faults = explained(fault.change.kind, "it", text, program)
    assert has_faults
    assert lines[0] == f"fault: {fault.words}"
    assert shown(fault.path) in map(path_of, lines[1:])


@pytest.mark.parametrize(
    "edge", cases.EDGES, ids=lambda edge: f"{edge.path[-1]}-{str(edge.value)[:40]!r}"
)
def test_value_at_a_limit_has_an_error_exactly_if_it_is_refused(
    program: pathlib.Path, edge: Change
) -> None:
    assert judged(program, edge.kind, edge.text()).agrees


@pytest.mark.parametrize(("change", "path", "value"), cases.PAIRS)
def test_two_faults_have_an_error(
    program: pathlib.Path, change: Change, path: Path, value: object
) -> None:
    both = judged(program, change.kind, change.text((path, value)))
    assert both.line
    assert both.agrees


KEYS = [
    pytest.param(kind, value, id=f"{name}-{change.__name__}-{key}")
    for name, (kind, document) in {**cases.VALUES, "replay of version 2": SECOND_REPLAY}.items()
    for change in (without_a_key, with_another_key)
    for key, value in change(document)
]


@pytest.mark.parametrize(("kind", "value"), KEYS)
def test_missing_or_unknown_key_has_an_error(program: pathlib.Path, kind: str, value: Any) -> None:
    one = judged(program, kind, compact(value))
    assert one.line
    assert one.agrees


@pytest.mark.parametrize("mistake", cases.MISTAKES, ids=lambda mistake: mistake.what)
def test_mistake_is_found_where_it_begins(program: pathlib.Path, mistake: Mistake) -> None:
    one = judged(program, "setup", mistake.made(WHOLE))
    assert one.line == (mistake.words and f"fault: {mistake.words}")
    assert one.agrees
    begins = [one.found.text[fault.place :] for fault in one.found.faults]
    assert not mistake.words or any(text.startswith(mistake.begin) for text in begins)


def test_utf_16_is_found_at_its_first_byte(program: pathlib.Path) -> None:
    one = judged(program, "setup", WHOLE.decode().encode("utf-16"))
    assert one.line == "fault: setup_not_json"
    assert [fault.place for fault in one.found.faults] == [0]


@pytest.mark.parametrize("depth", [126, 127, 128, 400, 2000])
def test_text_is_no_json_exactly_if_it_is_nested_128_deep(
    program: pathlib.Path, depth: int
) -> None:
    one = judged(program, "opening", b"[" * depth + b"]" * depth)
    assert one.line == ("fault: shape" if depth <= 127 else "fault: not_json")
    words = [fault.words for fault in one.found.faults]
    assert words == (
        ["expected an object"] if depth <= 127 else ["not JSON: nested more than 127 deep"]
    )


@pytest.mark.parametrize("body", bodies.BODIES, ids=lambda body: f"{body.kind}-{body.code}")
def test_body_that_each_auction_refuses_has_an_error_at_its_place(
    body: Body, server: Callable[..., Server]
) -> None:
    port = server(EXAMPLES / "one_product.json").ready().port
    line, letter = ("PUT /v1/me/bids", "X") if body.kind == "sheet" else ("POST /v1/close", "O")
    page = json.loads(answer_to(port, request(line, letter, body.text))[1])
    assert f"{page['status']} {page['code']}" == body.code
    assert body.path in [fault.path for fault in found_in(body.kind, body.text).faults]


@pytest.mark.parametrize(("increments", "wrong"), [([1, 50], []), ([10, 51], [1]), ([0, 10], [0])])
def test_increment_of_a_product_has_an_error_exactly_if_it_is_refused(
    increments: list[int], wrong: list[int], server: Callable[..., Server]
) -> None:
    port = server(EXAMPLES / "granules_and_increments.json").ready().port
    body = compact({"increments": increments, "round": 1, "ties": []})
    page = json.loads(answer_to(port, request("POST /v1/close", "O", body))[1])
    assert page.get("code") == ("increment" if wrong else None)
    paths = [fault.path for fault in found_in("closing", body).faults]
    assert paths == [("increments", place) for place in wrong]
