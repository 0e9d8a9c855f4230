"""Each answer to a mutated request or document is in the tables of docs/formats.md.

The gate sends 3,800 requests and 1,000 documents. The long run sends 100,000 and 10,000, and takes
some minutes:

    FUZZ_REQUESTS=100000 FUZZ_DOCUMENTS=10000 /usr/bin/python3 -m pytest tests/fuzz -n 4

FUZZ_SEED changes the inputs. Equal seeds give equal inputs.

Requests go to servers of 1,900 each. Each reply must be, byte for byte, a refusal of the table or a
page with status 200. Each server then gets a list of good requests. It must answer them like a
second server that received only the requests that changed something, and end with status 0.

A document must give either its lines or one fault line of the table, with the status that belongs
to it. No run may end by a signal or take longer than a minute.
"""
import os
import pathlib
from collections.abc import Iterator
from random import Random
from typing import NamedTuple

import pytest

from tests.lib.commands import COMMANDS, run
from tests.lib.http import reply_to
from tests.lib.mutated_requests import BIDDERS, SETUPS, mutated, request
from tests.lib.mutations import changed_document
from tests.lib.paths import EXAMPLES
from tests.lib.replies import answer_of
from tests.lib.server import Server

REQUESTS_A_SERVER, DOCUMENTS_A_JOB = 1_900, 250
SEED = os.environ.get("FUZZ_SEED", "1")


def sizes(variable: str, usual: int, size: int) -> list[int]:
    """The number of inputs of each job."""
    count = int(os.environ.get(variable, usual))
    return [min(size, count - begin) for begin in range(0, count, size)]


REQUESTS = list(enumerate(sizes("FUZZ_REQUESTS", 3_800, REQUESTS_A_SERVER)))
DOCUMENTS = list(enumerate(sizes("FUZZ_DOCUMENTS", 1_000, DOCUMENTS_A_JOB)))


# ---- Requests


def last_requests() -> Iterator[bytes]:
    """Yields good requests whose replies show the whole auction, and two that change it."""
    for path in ("status", "products", *(f"rounds/{number}" for number in range(1, 6))):
        yield request(f"GET /v1/{path}")
    yield request("GET /v1/results", "O")
    for letter in BIDDERS:
        for path in ("me", "me/bids", *(f"me/rounds/{number}" for number in range(1, 6))):
            yield request(f"GET /v1/{path}", letter)
    for number in (1, 2):
        body = b'{"bids":[{"price":100,"product":0,"quantity":1}],"round":%d}' % number
        yield request("PUT /v1/me/bids", "X", body)
    yield request("GET /v1/me/bids", "X")


LAST = list(last_requests())


class Played(NamedTuple):
    """What a server and a second one answered, and how they ended.

    `wrong` has the mutated requests whose reply is not in the table. The second server received
    only the requests that changed something.
    """

    wrong: list[tuple[bytes, bytes]]
    answers: set[str]
    last: list[bytes]
    last_of_second: list[bytes]
    ends: list[tuple[int, str]]


@pytest.fixture(scope="module", params=REQUESTS, ids=lambda job: f"requests-{SEED}-{job[0]}")
def played(program: pathlib.Path, request: pytest.FixtureRequest) -> Played:
    """A server that got mutated requests, and the second server."""
    number, count = request.param
    random = Random(f"requests {SEED} {number}")
    setup = EXAMPLES / f"{random.choice(SETUPS)}.json"
    wrong, changes, answers = [], [], set()
    with Server(program, setup, connections=count + len(LAST)) as server:
        for _ in range(count):
            text = mutated(random)
            cut = random.randrange(len(text) + 1) if random.random() < 0.2 else None
            reply = reply_to(server.port, text, cut)
            answer = answer_of(reply)
            answers.add(answer or "")
            wrong += [(text, reply)] * (answer is None)
            changes += [text] * (answer in ("200 accepted", "200 closed"))
        last = [reply_to(server.port, text) for text in LAST]
        ends = [server.ended()]
    with Server(program, setup, connections=len(changes) + len(LAST)) as second:
        for text in changes:
            reply_to(second.port, text)
        last_of_second = [reply_to(second.port, text) for text in LAST]
        ends.append(second.ended())
    return Played(wrong, answers, last, last_of_second, ends)


def test_each_reply_is_of_the_table(played: Played) -> None:
    assert played.wrong == []
    assert len(played.answers) >= 20


def test_requests_without_effect_change_no_later_answer(played: Played) -> None:
    assert played.last == played.last_of_second
    assert None not in map(answer_of, played.last)


def test_server_ends_with_status_0(played: Played) -> None:
    assert played.ends == [(0, "")] * 2


# ---- Documents


@pytest.mark.parametrize("job", DOCUMENTS, ids=lambda job: f"documents-{SEED}-{job[0]}")
def test_each_document_has_lines_or_a_fault_of_the_table(
    program: pathlib.Path, job: tuple[int, int]
) -> None:
    random = Random(f"documents {SEED} {job[0]}")
    command = COMMANDS[job[0] % len(COMMANDS)]
    number = random.randrange(len(command.examples))
    good, value = command.goods()[number], command.values()[number]
    before = run(program, command.word, good)
    texts = [changed_document(random, value) for _ in range(job[1])]
    ends = [(text, run(program, command.word, text)) for text in texts]
    assert [one for one in ends if command.answer(one[1]) is None] == []
    assert command.answer(before) == "lines"
    assert run(program, command.word, good) == before
