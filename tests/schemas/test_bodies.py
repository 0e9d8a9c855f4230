"""A body fits its schema exactly if its shape is right, and each reply to it is described."""
import json
import pathlib
import re
from random import Random
from typing import Any

import pytest

from tests.lib.http import answer_to
from tests.lib.mutated_requests import SETUPS, good_request
from tests.lib.paths import EXAMPLES
from tests.lib.server import Server
from tests.schemas.auctions import Reply, Sent
from tests.schemas.described import DOCUMENTS, is_described
from tests.schemas.exceptions import is_pointed, value_of

REQUESTS = 450  # For each set-up.


def sent_of(text: bytes) -> Sent:
    """A request with its method and its route."""
    method, path, _ = text.split(b"\r\n")[0].decode().split(" ")
    return Sent(method, re.sub(r"(/rounds/)\w+$", r"\1{n}", path), text)


@pytest.fixture(scope="module", params=SETUPS)
def setup(request: pytest.FixtureRequest) -> str:
    """The name of a set-up."""
    return str(request.param)


@pytest.fixture(scope="module")
def replies(program: pathlib.Path, setup: str) -> list[Reply]:
    """The replies to mutated requests of a set-up's auction."""
    chance, found = Random(f"schemas {setup}"), []
    with Server(program, EXAMPLES / f"{setup}.json", connections=REQUESTS) as server:
        for _ in range(REQUESTS):
            text = good_request(chance)
            status, page = answer_to(server.port, text)
            found.append(Reply(sent_of(text), status, page.decode()))
        assert server.ended() == (0, "")
    return found


def bodies(replies: list[Reply], method: str, status: int) -> list[tuple[Reply, bytes, Any]]:
    """The bodies that are JSON, of requests with this method and status, and their values."""
    found = []
    for reply in replies:
        body = reply.sent.text.partition(b"\r\n\r\n")[2]
        if (reply.sent.method, reply.status) == (method, status):
            try:
                found.append((reply, body, value_of(body)))
            except ValueError:
                continue
    return found


KINDS = [("PUT", "sheet"), ("POST", "closing")]


def test_each_reply_is_described(replies: list[Reply]) -> None:
    known = [one for one in replies if one.sent.method != "HEAD" and one.status != 405]
    assert [one for one in known if not is_described(*one.described)] == []
    assert len(known) >= 300


@pytest.mark.parametrize(("method", "kind"), KINDS)
def test_accepted_body_fits(replies: list[Reply], method: str, kind: str) -> None:
    accepted = bodies(replies, method, 200)
    fits = DOCUMENTS[kind].is_valid
    assert [body for _, body, value in accepted if not fits(value)] == []


@pytest.mark.parametrize(("method", "kind"), KINDS)
def test_body_of_a_wrong_shape_does_not_fit(
    replies: list[Reply], setup: str, method: str, kind: str
) -> None:
    version = json.loads((EXAMPLES / f"{setup}.json").read_text())["version"]
    other_key = "increments" if version == 1 else "increment"
    wrong = []
    for reply, body, value in bodies(replies, method, 422):
        if reply.code == "shape" and DOCUMENTS[kind].is_valid(value):
            is_of_other_version = kind == "closing" and other_key in value
            wrong += [body] * (not is_pointed(body, value) and not is_of_other_version)
    assert wrong == []
