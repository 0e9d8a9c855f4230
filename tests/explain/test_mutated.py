"""In mutated documents and bodies, an error is found exactly if the program refuses."""
import json
import pathlib
import re
import time
from random import Random
from typing import Any, NamedTuple

import pytest

from auction.explain.faults import found_in
from tests.explain.cases import REPLAY
from tests.explain.judged import IN_PLAY, judged
from tests.lib.commands import COMMANDS, Command
from tests.lib.http import answer_to, compact
from tests.lib.mutated_requests import SETUPS, good_request
from tests.lib.mutations import changed_document, much_changed_bytes
from tests.lib.paths import EXAMPLES
from tests.lib.server import Server

DOCUMENTS = 700  # For each command.
REQUESTS = 500  # For each set-up.
MOST_WALKS = 100
OF_SHAPE = ("not JSON", "expected ", "the key ", "unknown key ")
ELSEWHERE = ("token", "role", "ended", "method")  # Codes that say nothing of a body.


@pytest.mark.parametrize("command", COMMANDS, ids=lambda command: command.word)
def test_mutated_document_has_an_error_exactly_if_it_is_refused(
    program: pathlib.Path, command: Command
) -> None:
    chance, goods = Random(f"explain {command.word}"), command.values()
    texts = [changed_document(chance, goods[number % len(goods)]) for number in range(DOCUMENTS)]
    found = [judged(program, command.kind, text) for text in texts]
    assert [one for one in found if not one.agrees] == []
    assert sum(one.line == "" for one in found) >= 10
    assert sum(bool(one.found.faults) for one in found) >= 400
    assert command.kind != "replay" or sum(bool(IN_PLAY.match(one.line)) for one in found) >= 10


class Answered(NamedTuple):
    """A body, the code of its refusal, and the kind of the body."""

    kind: str
    body: bytes
    code: str | None


def request_of(chance: Random) -> bytes:
    """A request of a live auction, whose body may be changed byte by byte."""
    text = good_request(chance)
    if text.startswith((b"PUT /v1/me/bids", b"POST")) and chance.random() < 0.3:
        head, _, body = text.partition(b"\r\n\r\n")
        body = much_changed_bytes(chance, body)
        head = re.sub(rb"content-length: \d+", b"content-length: %d" % len(body), head)
        text = head + b"\r\n\r\n" + body
    return text


@pytest.fixture(scope="module", params=SETUPS)
def answered(program: pathlib.Path, request: pytest.FixtureRequest) -> tuple[int, list[Answered]]:
    """The version of a set-up, and the bodies that its auction judged."""
    file, chance, found = EXAMPLES / f"{request.param}.json", Random(f"explain {request.param}"), []
    with Server(program, file, connections=REQUESTS) as server:
        for _ in range(REQUESTS):
            text = request_of(chance)
            page: Any = json.loads(answer_to(server.port, text)[1])
            kind = {b"PUT /v1/me/bids": "sheet", b"POST /v1/close": "closing"}.get(
                text.partition(b" HTTP")[0]
            )
            if kind and page.get("code") not in ELSEWHERE:
                body = text.partition(b"\r\n\r\n")[2]
                found.append(Answered(kind, body, page.get("code")))
        assert server.ended() == (0, "")
    return json.loads(file.read_text())["version"], found


def test_accepted_body_has_no_error(answered: tuple[int, list[Answered]]) -> None:
    accepted = [one for one in answered[1] if one.code is None]
    assert [one for one in accepted if found_in(one.kind, one.body).faults] == []


def test_body_of_a_wrong_shape_has_an_error(answered: tuple[int, list[Answered]]) -> None:
    version, judged_bodies = answered
    other = b'"increments"' if version == 1 else b'"increment"'
    refused = [one for one in judged_bodies if one.code in ("bad_json", "shape")]
    passed = [one for one in refused if not found_in(one.kind, one.body).faults]
    # A closing by itself does not show the version of its auction.
    assert [one for one in passed if one.kind == "sheet" or other not in one.body] == []
    assert len(refused) >= 20


def test_body_of_the_right_shape_has_no_error_of_its_shape(
    answered: tuple[int, list[Answered]]
) -> None:
    shaped = [one for one in answered[1] if one.code not in ("bad_json", "shape")]
    words = [fault.words for one in shaped for fault in found_in(one.kind, one.body).faults]
    assert [one for one in words if one.startswith(OF_SHAPE)] == []
    assert len(shaped) >= 25


def test_body_that_is_no_json_is_found_as_such(answered: tuple[int, list[Answered]]) -> None:
    words = {
        one: [fault.words for fault in found_in(one.kind, one.body).faults] for one in answered[1]
    }
    no_json = {one for one, found in words.items() if found and found[0].startswith("not JSON")}
    assert no_json == {one for one in answered[1] if one.code == "bad_json"}


def test_large_rehearsal_is_judged_quickly() -> None:
    product, bidder = REPLAY["setup"]["products"][0], REPLAY["setup"]["bidders"][0]
    setup = {
        **REPLAY["setup"],
        "products": [{**product, "name": f"P{n}"} for n in range(2000)],
        "bidders": [{**bidder, "name": f"B{n}", "token": f"{n:016}"} for n in range(250)],
    }
    scripts = [{"kind": "sincere", "limits": [[2000, 1500]] * 2000} for _ in range(250)]
    data = compact({"closings": [], "scripts": scripts, "setup": setup})
    data = data.replace(b'P77"', b'P 77"', 1)
    comma, begun = ord(","), time.process_time()
    sum(1 for byte in data if byte == comma)
    walked = time.process_time()
    found = found_in("replay", data)
    passed, walk = time.process_time() - walked, walked - begun
    assert [fault.path for fault in found.faults] == [("setup", "products", 77, "name")]
    assert passed <= MOST_WALKS * walk, (len(data), passed, walk)
