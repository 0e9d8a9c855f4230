"""Under any limit of its memory, the program answers, or reports that it is out of memory.

The limits are from the least at which the system starts the program to a little above the least at
which it answers. No run may end by a signal.
"""
import json
import pathlib
import subprocess
from concurrent.futures import ThreadPoolExecutor
from typing import Any

import pytest

from tests.lib import setups
from tests.lib.http import compact
from tests.lib.paths import EXAMPLES, TOP
from tests.lib.ports import free_port
from tests.lib.waiting import WORKERS
from tests.memory.limited import MOST, REQUESTS, is_loaded, is_proper, is_refused, least
from tests.memory.limited import limits_between, run, serve
from tests.memory.requests import OUT_OF_MEMORY, REPLY_OUT_OF_MEMORY


def large_setup(products: int, bidders: int) -> dict[str, Any]:
    """A set-up of this number of products and bidders."""
    return setups.setup(
        [setups.product(f"P{number}", 1000) for number in range(products)],
        [setups.bidder(f"B{number}", f"{number:020d}", 10**12) for number in range(bidders)],
        90,
    )


def large_opening() -> bytes:
    """An opening of 100 products and 80 bidders."""
    opening = {"demands": [[7] * 100] * 80, "increment": 10, "setup": large_setup(100, 80)}
    return compact(opening)


def large_rehearsal() -> bytes:
    """A rehearsal of 30 products and 12 bidders."""
    words = [str(TOP / "examples/rehearsal_of"), "30", "12", "15"]
    return subprocess.run(words, capture_output=True, check=True, timeout=60).stdout


def long_rehearsal() -> bytes:
    """A rehearsal of many more closings than it plays, with white space after them.

    No closing may allocate memory for what follows it.
    """
    rehearsal = json.loads((EXAMPLES / "rehearsal.json").read_bytes())
    closings = compact({"closings": rehearsal.pop("closings") * 50})
    return closings[:-1] + b"," + b" " * 1_000_000 + compact(rehearsal)[1:]


def example(name: str) -> bytes:
    """An example of a document."""
    return (EXAMPLES / f"{name}.json").read_bytes()


# The program's words, and its document.
COMMANDS: dict[str, tuple[list[str], bytes]] = {
    "without a word": ([], example("price_edges")),
    "prices": (["prices", "--increment", "25"], compact(large_setup(1_000, 200))),
    "opening": (["opening"], example("opening")),
    "a large opening": (["opening"], large_opening()),
    "a nested opening": (["opening"], b"[" * 127 + b"]" * 127),
    "replay": (["replay"], example("rehearsal")),
    "a large replay": (["replay"], large_rehearsal()),
    "a long replay": (["replay"], long_rehearsal()),
}


@pytest.fixture(scope="module")
def floor(program: pathlib.Path) -> int:
    """The least limit at which the system starts the program."""
    return least(lambda limit: is_loaded(program, limit), 0, MOST)


@pytest.mark.parametrize(("words", "document"), COMMANDS.values(), ids=COMMANDS)
def test_command_answers_or_is_out_of_memory(
    program: pathlib.Path, floor: int, words: list[str], document: bytes
) -> None:
    wanted = run(program, words, document, MOST)
    assert wanted is not None and wanted != OUT_OF_MEMORY and wanted[0] in (0, 1)
    enough = least(lambda limit: run(program, words, document, limit) == wanted, floor, MOST)
    limits = limits_between(floor, enough)
    with ThreadPoolExecutor(WORKERS) as threads:
        ends = list(threads.map(lambda limit: run(program, words, document, limit), limits))
    both = list(zip(limits, ends))
    assert [one for one in both if one[1] != wanted and not is_refused(one[1])] == []
    assert ends.count(wanted) >= 25
    assert ends.count(OUT_OF_MEMORY) >= 15


def test_server_answers_or_is_out_of_memory(program: pathlib.Path, floor: int) -> None:
    wanted = serve(program, MOST, free_port())
    assert (len(wanted.replies), wanted.end) == (len(REQUESTS), (0, b"", b""))
    enough = least(lambda limit: serve(program, limit, free_port()) == wanted, floor, MOST)
    limits = limits_between(floor, enough)
    # Until a new process runs the server, it has the open sockets of this one, also that of a port
    # that is being drawn. So the ports are drawn before the first thread starts a server.
    ports = [free_port() for _ in limits]
    with ThreadPoolExecutor(WORKERS) as threads:
        served = list(threads.map(lambda both: serve(program, *both), zip(limits, ports)))
    assert [one for one in zip(limits, served) if not is_proper(one[1], wanted)] == []
    assert served.count(wanted) >= 25
    assert sum(REPLY_OUT_OF_MEMORY in one.replies for one in served) >= 40
