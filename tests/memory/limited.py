"""Runs the program under a limit of its address space (`ulimit -v`)."""
import os
import pathlib
import resource
import subprocess
import tempfile
from collections.abc import Callable
from typing import Any, NamedTuple

from tests.lib.http import compact, reply_to, text_of
from tests.lib.paths import EXAMPLES
from tests.memory.requests import OUT_OF_MEMORY, REPLY_OUT_OF_MEMORY
from tests.memory.shim import SECONDS, End

PAGE = resource.getpagesize()
MOST = 64 << 20
PAGES_AT_ENDS = 40
STEPS = 80

# A sheet, and one so long that reading it takes more memory than everything before.
TOKEN = "X" * 16
BID = {"price": 100, "product": 0, "quantity": 2}
REQUESTS = [
    text_of("PUT /v1/me/bids", TOKEN, compact({"bids": [BID], "round": 1})),
    text_of("PUT /v1/me/bids", TOKEN, compact({"bids": [BID] * 8_192, "round": 1})),
    text_of("GET /v1/products"),
    text_of("GET /v1/me/bids", TOKEN),
]


class Served(NamedTuple):
    """The replies of a server, and its end, or None if the system did not start it."""

    replies: list[bytes]
    end: End | None


def started(
    program: pathlib.Path, words: list[str], limit: int, **options: Any
) -> subprocess.Popen[bytes] | None:
    """Starts the program under a limit. Returns None if the system does not start it."""

    def take_limit() -> None:
        resource.setrlimit(resource.RLIMIT_AS, (limit, limit))

    try:
        return subprocess.Popen(
            [str(program), *words],
            stdout=subprocess.PIPE,
            stderr=subprocess.PIPE,
            preexec_fn=take_limit,
            **options,
        )
    except (OSError, subprocess.SubprocessError):
        return None


def run(program: pathlib.Path, words: list[str], document: bytes, limit: int) -> End | None:
    """The status, the output, and the error of a run, or None if the program did not start.

    The document is a file: how much memory its reading takes depends on the lengths of the reads,
    and those of a pipe depend on the time.
    """
    with tempfile.TemporaryFile() as file:
        file.write(document)
        file.seek(0)
        child = started(program, words, limit, stdin=file)
    if child is None:
        return None
    output, error = child.communicate(timeout=SECONDS)
    return child.returncode, output, error


def serve(program: pathlib.Path, limit: int, port: int) -> Served:
    """Runs a server under a limit, and sends it REQUESTS."""
    words = ["serve", "--setup", str(EXAMPLES / "one_product.json"), "--port", str(port)]
    words += ["--connections", str(len(REQUESTS))]
    server = started(program, words, limit, stdin=subprocess.DEVNULL)
    if server is None:
        return Served([], None)
    assert server.stdout is not None
    is_ready = server.stdout.readline() == b"ready %d\n" % port
    replies = [reply_to(port, text) for text in REQUESTS] if is_ready else []
    output, error = server.communicate(timeout=SECONDS)
    return Served(replies, (server.returncode, output, error))


def is_loaded(program: pathlib.Path, limit: int) -> bool:
    """Whether the loader has enough memory for the program, which it does not run."""
    environment = {**os.environ, "LD_TRACE_LOADED_OBJECTS": "1"}
    child = started(program, [], limit, stdin=subprocess.DEVNULL, env=environment)
    if child is None:
        return False
    child.communicate()
    return child.returncode == 0


def is_refused(end: End | None) -> bool:
    """Whether a run ended as one may that has not enough memory.

    The loader needs a little memory itself, and may fail before the program runs.
    """
    if end is None or end == OUT_OF_MEMORY:
        return True
    return end[0] == 127 and b"error while loading shared libraries" in end[2]


def is_proper(served: Served, wanted: Served) -> bool:
    """Whether each reply of a server is the wanted one or 503, or it had no memory to start."""
    if not served.replies:
        return is_refused(served.end)
    replies = zip(served.replies, wanted.replies)
    are_proper = all(reply in (right, REPLY_OUT_OF_MEMORY) for reply, right in replies)
    return served.end == (0, b"", b"") and are_proper


def least(is_enough: Callable[[int], bool], low: int, high: int) -> int:
    """The least sufficient limit, in whole pages. Requires that a page more is never worse."""
    while high - low > PAGE:
        middle = (low + high) // 2 // PAGE * PAGE
        low, high = (low, middle) if is_enough(middle) else (middle, high)
    return high


def limits_between(floor: int, enough: int) -> list[int]:
    """Limits page by page at both ends, and in even steps between them."""
    near = range(-PAGES_AT_ENDS, PAGES_AT_ENDS)
    ends = [end + number * PAGE for end in (floor, enough) for number in near]
    steps = [floor + (enough - floor) * number // STEPS // PAGE * PAGE for number in range(STEPS)]
    return sorted({limit for limit in [*ends, *steps] if limit >= floor})
