"""Refuses each system call of a server on its journal in turn, on a new file and on old ones.

Each refusal is a fault, and no request with a reply is lost.
"""
from collections.abc import Callable
from pathlib import Path

import pytest

from tests.crash.auction import Auction
from tests.crash.journals import Ten
from tests.crash.requests import BIDDERS, closing, is_accepted, sheet
from tests.crash.shims import Shims
from tests.lib.http import reply_to
from tests.lib.journals import HEAD, whole_texts_of
from tests.lib.server import Server

pytestmark = pytest.mark.needs("cc")

TEXTS = [*(sheet(token, 1, 100, 1) for token in BIDDERS), closing(1)]
CALLS = ("open", "statx", "flock", "read", "write", "fdatasync", "ftruncate", "fsync")
# The least number of each call. The head and each request are written and synced.
NEW = {"open": 2, "write": 1 + len(TEXTS), "fdatasync": 1 + len(TEXTS), "fsync": 1}
WHOLE = {"open": 2, "read": 1, "fdatasync": 1, "fsync": 1}
TORN = {**WHOLE, "ftruncate": 1}
# Calls of which some come after a torn record was cut off.
CALLS_AFTER_CUT = ("open", "fsync")

EACH_CALL = pytest.mark.parametrize("call", CALLS)


def refused_calls(is_refused: Callable[[int], bool]) -> int:
    """Refuses the first call, the second, and so on. Returns how many a server makes."""
    count = 0
    while is_refused(count + 1):
        count += 1
    return count


@EACH_CALL
def test_a_refused_call_on_a_new_journal(
    auction: Auction, shims: Shims, tmp_path: Path, call: str
) -> None:
    def is_refused(number: int) -> bool:
        file = tmp_path / f"{number}.journal"
        environment = shims.refuse(file, call, number)
        with auction.server(file, connections=len(TEXTS), environment=environment) as server:
            replied = replied_by(server) if server.is_ready() else []
            status, fault = server.ended()
        if status == 0:
            assert replied == TEXTS
            return False
        assert fault == "fault: journal\n", number
        assert_none_is_lost(auction, file, replied, number)
        return True

    assert refused_calls(is_refused) >= NEW.get(call, 0)


def replied_by(server: Server) -> list[bytes]:
    """Sends requests up to the first without a reply. Returns those that were accepted."""
    replied = []
    for text in TEXTS:
        try:
            reply = reply_to(server.port, text)
        except OSError:
            break
        if is_accepted(reply):
            replied.append(text)
    return replied


def assert_none_is_lost(auction: Auction, file: Path, replied: list[bytes], number: int) -> None:
    """Fails if a journal lacks requests with a reply, has others, or starts no server."""
    logged = file.read_bytes() if file.exists() else b""
    texts: list[bytes] = []
    if len(logged) >= HEAD:
        whole = whole_texts_of(auction.setup.read_bytes(), logged)
        texts = [text for text, _digest in whole]
    assert texts[: len(replied)] == replied, number
    assert len(texts) <= len(replied) + 1, number
    assert auction.first_line(file).split()[:2] == ["journal", str(len(texts))], number


@EACH_CALL
def test_a_refused_call_at_a_start_on_a_whole_journal(
    auction: Auction, shims: Shims, ten: Ten, tmp_path: Path, call: str
) -> None:
    file = tmp_path / "whole.journal"

    def is_refused(number: int) -> bool:
        return is_start_refused(auction, file, ten, b"", shims.refuse(file, call, number))

    assert refused_calls(is_refused) >= WHOLE.get(call, 0)


@EACH_CALL
def test_a_refused_call_at_a_start_on_a_journal_with_a_torn_record(
    auction: Auction, shims: Shims, ten: Ten, tmp_path: Path, call: str
) -> None:
    file, torn = tmp_path / "torn.journal", ten.content[HEAD : HEAD + 60]

    def is_refused(number: int) -> bool:
        return is_start_refused(auction, file, ten, torn, shims.refuse(file, call, number))

    assert refused_calls(is_refused) >= TORN.get(call, 0)


def is_start_refused(
    auction: Auction, file: Path, ten: Ten, tail: bytes, environment: dict[str, str]
) -> bool:
    """Refuses a call at a start. Returns False if the start makes fewer calls."""
    file.write_bytes(ten.content + tail)
    call, number = environment["REFUSE_CALL"], environment["REFUSE_AT"]
    with auction.server(file, connections=1, environment=environment) as server:
        if server.is_ready():
            assert file.read_bytes() == ten.content, number
            return False
        status, errors = server.ended()
    assert (status, errors.splitlines()[-1:]) == (1, ["fault: journal"]), number
    assert server.lines == [], number
    logged = file.read_bytes()
    is_cut = call in CALLS_AFTER_CUT and logged == ten.content
    assert logged == ten.content + (b"" if is_cut else tail), number
    assert auction.first_line(file) == ten.last_line, number
    assert file.read_bytes() == ten.content, number
    return True
