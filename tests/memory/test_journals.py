"""The memory of a command that reads a journal does not grow with the journal."""
import pathlib
import socket

import pytest

from tests.lib.journals import journal_of
from tests.memory.limited import MOST, least, run
from tests.memory.requests import ONE, put

FEW, MANY = 10, 20_000
# The most by which the memory for the two journals may differ. The longer one has 3.7 MB.
MORE = 128 << 10


def sheets_in(count: int) -> bytes:
    """A journal of sheets of one bidder, each in place of the one before it."""
    texts = [put("X", 1, (0, 1 + number % 2, 100)).encode() for number in range(count)]
    return journal_of(ONE.encode(), texts)


def check_memory(
    program: pathlib.Path, folder: pathlib.Path, command: str, *more: str, fault: bytes = b""
) -> None:
    """The least memory in which a command answers is about the same for a long journal. The file
    `mirror` has the same journal.
    """
    setup, journal = folder / "setup.json", folder / "journal"
    setup.write_text(ONE)
    words = [command, "--setup", str(setup), "--journal", str(journal), *more]

    def least_for(count: int) -> int:
        """The least limit at which the command answers for a journal of this number of sheets."""
        for file in (journal, folder / "mirror"):
            file.write_bytes(sheets_in(count))
        wanted = run(program, words, b"", MOST)
        assert wanted is not None and wanted[2] == fault
        assert b"journal %d " % count in wanted[1]
        return least(lambda limit: run(program, words, b"", limit) == wanted, 0, MOST)

    assert len(sheets_in(MANY)) > 20 * MORE
    assert least_for(MANY) - least_for(FEW) <= MORE


@pytest.mark.parametrize("command", ["audit", "journal"])
def test_memory_does_not_grow_with_the_journal(
    program: pathlib.Path, tmp_path: pathlib.Path, command: str
) -> None:
    check_memory(program, tmp_path, command)


@pytest.mark.parametrize("has_mirror", [False, True], ids=["one file", "with a mirror"])
def test_memory_of_a_start_does_not_grow_with_the_journal(
    program: pathlib.Path, tmp_path: pathlib.Path, has_mirror: bool
) -> None:
    """The port is taken, so the server ends after it has resumed the journal."""
    mirror = ["--mirror", str(tmp_path / "mirror")] if has_mirror else []
    with socket.create_server(("127.0.0.1", 0)) as taken:
        port = str(taken.getsockname()[1])
        more = ["--port", port, "--connections", "1", *mirror]
        check_memory(program, tmp_path, "serve", *more, fault=b"fault: bind\n")


@pytest.mark.parametrize(("one", "other"), [("journal", "mirror"), ("mirror", "journal")])
def test_a_long_file_is_copied_to_an_empty_one(
    program: pathlib.Path, tmp_path: pathlib.Path, one: str, other: str
) -> None:
    setup, whole = tmp_path / "setup.json", sheets_in(FEW * FEW * FEW)
    setup.write_text(ONE)
    (tmp_path / one).write_bytes(whole)
    (tmp_path / other).write_bytes(b"")
    files = ["--journal", str(tmp_path / "journal"), "--mirror", str(tmp_path / "mirror")]
    with socket.create_server(("127.0.0.1", 0)) as taken:
        port = ["--port", str(taken.getsockname()[1]), "--connections", "1"]
        ended = run(program, ["serve", "--setup", str(setup), *files, *port], b"", 2 * MOST)
    assert ended is not None and ended[2] == b"fault: bind\n"
    assert (tmp_path / other).read_bytes() == whole == (tmp_path / one).read_bytes()
