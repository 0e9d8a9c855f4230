"""Refuses each system call of a server on each of the two files of its journal, in turn.

Each refusal is a fault, both files keep each request that got a reply, and the next start resumes
from both files, and from the one whose calls were not refused.
"""
from collections.abc import Callable
from dataclasses import dataclass
from pathlib import Path

import pytest

from tests.crash.auction import Auction
from tests.crash.journals import Ten
from tests.crash.requests import BIDDERS, closing, is_accepted, sheet
from tests.crash.shims import Shims
from tests.crash.two_files import Files, content_of, texts_in
from tests.lib.http import reply_to
from tests.lib.journals import HEAD
from tests.lib.server import Server

pytestmark = pytest.mark.needs("cc")

TEXTS = [*(sheet(token, 1, 100, 1) for token in BIDDERS), closing(1)]
CALLS = ("open", "statx", "flock", "read", "write", "fdatasync", "ftruncate", "fsync")
# The least number of each call on one file. The head and each request are written and synced.
NEW = {"open": 2, "flock": 1, "write": 1 + len(TEXTS), "fdatasync": 1 + len(TEXTS), "fsync": 1}
OLD = {"open": 2, "flock": 1, "read": 1, "fdatasync": 1, "fsync": 1}

EACH_CALL = pytest.mark.parametrize("call", CALLS)
EACH_FILE = pytest.mark.parametrize("which", ["first", "second"])


def refused_calls(is_refused: Callable[[int], bool]) -> int:
    """Refuses the first call, the second, and so on. Returns how many a server makes."""
    count = 0
    while is_refused(count + 1):
        count += 1
    return count


def replied_by(server: Server) -> list[bytes]:
    """Sends requests up to the first without a reply. Returns those that were accepted."""
    replied = []
    for text in TEXTS:
        try:
            reply = reply_to(server.port, text)
        except OSError:
            break
        if is_accepted(reply):
            replied.append(text)
    return replied


@EACH_FILE
@EACH_CALL
def test_a_refused_call_on_two_new_files(
    program: Path, shims: Shims, tmp_path: Path, call: str, which: str
) -> None:
    def is_refused(number: int) -> bool:
        files = Files(program, tmp_path / str(number))
        environment = shims.refuse(getattr(files, which), call, number)
        with files.server(connections=len(TEXTS), environment=environment) as server:
            replied = replied_by(server) if server.is_ready() else []
            status, fault = server.ended()
        if status == 0:
            assert replied == TEXTS
            return False
        assert (status, fault) == (1, "fault: journal\n"), number
        assert_none_is_lost(files, getattr(files, which), replied)
        return True

    assert refused_calls(is_refused) >= NEW.get(call, 0)


def assert_none_is_lost(files: Files, refused: Path, replied: list[bytes]) -> None:
    """Fails if a file lacks requests with a reply, or if a start does not resume all of them."""
    for content in files.contents():
        texts = texts_in(content)
        assert texts[: len(replied)] == replied
        assert len(texts) <= len(replied) + 1
    left = texts_in(content_of(files.other(refused)))
    before = files.contents()
    both = max(map(texts_in, before), key=len)
    assert files.first_line().split()[:2] == ["journal", str(len(both))]
    assert [texts_in(content) for content in files.contents()] == [both, both]
    refused.unlink()
    files.other(refused).write_bytes(before[files.other(refused) == files.second])
    assert files.first_line().split()[:2] == ["journal", str(len(left))]


@dataclass(frozen=True)
class Found:
    """What a start finds: for each file, the end of its bytes in ten requests and a torn record."""

    ends: tuple[int | None, int | None]

    def put(self, files: Files, ten: Ten) -> None:
        """Writes the files."""
        torn = ten.content + ten.content[HEAD : HEAD + 60]
        for file, end in zip((files.first, files.second), self.ends):
            file.unlink(missing_ok=True)
            if end is not None:
                file.write_bytes(torn[: len(ten.content) + end])


# The ends, from the end of the last whole record. `None` is a file that is not there.
FOUND = {
    "whole": Found((0, 0)),
    "torn": Found((60, 7)),
    "first_lost": Found((None, 0)),
    "second_short": Found((0, -100)),
}


@EACH_FILE
@EACH_CALL
@pytest.mark.parametrize("found", FOUND.values(), ids=FOUND)
def test_a_refused_call_at_a_start_on_two_old_files(
    auction: Auction, shims: Shims, ten: Ten, tmp_path: Path, call: str, which: str, found: Found
) -> None:
    files = Files(auction.program, tmp_path)

    def is_refused(number: int) -> bool:
        found.put(files, ten)
        return is_start_refused(files, ten, shims.refuse(getattr(files, which), call, number))

    assert refused_calls(is_refused) >= OLD.get(call, 0)


def is_start_refused(files: Files, ten: Ten, environment: dict[str, str]) -> bool:
    """Refuses a call at a start. Returns False if the start makes fewer calls."""
    with files.server(connections=1, environment=environment) as server:
        if server.is_ready():
            assert files.contents() == [ten.content, ten.content]
            return False
        status, errors = server.ended()
    assert (status, errors.splitlines()[-1:]) == (1, ["fault: journal"])
    assert server.lines == []
    one, other = sorted(files.contents(), key=len)
    assert other.startswith(one) and other.startswith(ten.content)
    assert files.first_line() == ten.last_line
    assert files.contents() == [ten.content, ten.content]
    return True
