"""Files on which no server starts, and a full disk."""
import os
import random
import resource
import signal
from pathlib import Path

import pytest

from tests.crash.auction import Auction
from tests.crash.journals import Ten
from tests.crash.requests import Load
from tests.lib.journals import whole_texts_of

FULL = 4096
OTHER_TEXT = b"no journal, and long enough to be one: 56 bytes and more are here"


@pytest.fixture
def journal(ten: Ten, tmp_path: Path) -> Path:
    """A whole journal."""
    file = tmp_path / "auction.journal"
    file.write_bytes(ten.content)
    return file


def test_a_second_server_is_refused(auction: Auction, ten: Ten, journal: Path) -> None:
    with auction.server(journal) as first:
        first.ready()
        assert auction.end_of(journal) == (1, "fault: journal_busy\n")
    assert journal.read_bytes() == ten.content


def test_a_folder_is_refused(auction: Auction, tmp_path: Path) -> None:
    assert auction.end_of(tmp_path) == (1, "fault: journal\n")


def test_a_file_in_no_folder_is_refused(auction: Auction, tmp_path: Path) -> None:
    assert auction.end_of(tmp_path / "none" / "a.journal") == (1, "fault: journal\n")


def test_a_device_is_refused(auction: Auction) -> None:
    assert auction.end_of(Path("/dev/full")) == (1, "fault: journal\n")


def test_another_text_is_refused(auction: Auction, tmp_path: Path) -> None:
    file = tmp_path / "text.journal"
    file.write_bytes(OTHER_TEXT)
    assert auction.end_of(file) == (1, "fault: journal_unknown\n")
    assert file.read_bytes() == OTHER_TEXT


def test_a_start_with_a_closed_output_is_refused(auction: Auction, ten: Ten, journal: Path) -> None:
    assert auction.end_of(journal, before=lambda: os.close(1)) == (1, "fault: output\n")
    assert journal.read_bytes() == ten.content


def test_a_journal_of_a_setup_with_one_byte_less_is_refused(
    auction: Auction, ten: Ten, journal: Path, tmp_path: Path
) -> None:
    other = Auction(auction.program, tmp_path)
    other.setup.write_bytes(auction.setup.read_bytes() + b" ")
    assert other.end_of(journal) == (1, "fault: journal_setup\n")
    assert journal.read_bytes() == ten.content


def limit_files() -> None:
    """Makes the disk full for this process: no file grows beyond a limit."""
    signal.signal(signal.SIGXFSZ, signal.SIG_IGN)
    resource.setrlimit(resource.RLIMIT_FSIZE, (FULL, FULL))


def test_on_a_full_disk_all_requests_with_a_reply_are_logged_and_the_server_ends(
    auction: Auction, tmp_path: Path
) -> None:
    file, load = tmp_path / "full.journal", Load(random.Random(105))
    with auction.server(file, before=limit_files) as server:
        load.send_to(server.port)
        assert server.ended() == (1, "fault: journal\n")
    logged = list(whole_texts_of(auction.setup.read_bytes(), file.read_bytes()))
    assert [text for text, _digest in logged] == load.replied != []
    assert auction.first_line(file) == f"journal {len(logged)} {logged[-1][1]}"
