"""A journal in two files: if one file is lost, the auction continues from the other."""
from collections.abc import Callable
from pathlib import Path

import pytest

from tests.crash.requests import SETUP_TEXT, closing, sheet
from tests.crash.two_files import Files
from tests.lib.journals import HEAD, journal_of, texts_of
from tests.lib.server import Server

TEXTS = [sheet(letter * 16, 1, 100, 1) for letter in "XYZ"] + [closing(1)]
OTHER_SETUP = SETUP_TEXT.replace(b'"opening":100', b'"opening":101')


@pytest.fixture
def files(program: Path, tmp_path: Path) -> Files:
    """Two files with four accepted requests."""
    made = Files(program, tmp_path)
    made.play(TEXTS)
    return made


def test_both_files_are_the_journal_of_all_accepted_requests(files: Files) -> None:
    wanted = journal_of(SETUP_TEXT, TEXTS)
    assert files.contents() == [wanted, wanted]


def lose(file: Path) -> None:
    file.unlink()


def empty(file: Path) -> None:
    file.write_bytes(b"")


def cut_in_head(file: Path) -> None:
    file.write_bytes(file.read_bytes()[: HEAD - 1])


def cut_in_record(file: Path) -> None:
    file.write_bytes(file.read_bytes()[:-10])


def forget_the_last(file: Path) -> None:
    file.write_bytes(journal_of(SETUP_TEXT, TEXTS[:-1]))


LOSSES = [lose, empty, cut_in_head, cut_in_record, forget_the_last]


@pytest.mark.parametrize("which", ["first", "second"])
@pytest.mark.parametrize("loss", LOSSES, ids=lambda loss: loss.__name__)
def test_a_start_makes_a_lost_file_whole(
    files: Files, which: str, loss: Callable[[Path], None]
) -> None:
    before = files.contents()
    loss(getattr(files, which))
    files.play([])
    assert files.contents() == before


@pytest.mark.parametrize("which", ["first", "second"])
def test_the_auction_continues_after_the_loss_of_a_file(files: Files, which: str) -> None:
    getattr(files, which).unlink()
    more = [sheet("X" * 16, 2, 101, 1)]
    files.play(more)
    for content in files.contents():
        assert [text for text, _ in texts_of(SETUP_TEXT, content)] == TEXTS + more


def refusal_of(files: Files) -> tuple[int, str]:
    """How a start on these files ends."""
    with files.server() as server:
        assert not server.is_ready()
        return server.ended()


def test_files_that_continued_without_each_other_are_refused(files: Files) -> None:
    one, other = (TEXTS + [sheet(letter * 16, 2, 101, 1)] for letter in "XY")
    files.first.write_bytes(journal_of(SETUP_TEXT, one))
    files.second.write_bytes(journal_of(SETUP_TEXT, other))
    before = files.contents()
    place = next(at for at, (a, b) in enumerate(zip(*before)) if a != b)
    assert refusal_of(files) == (1, f"fault: journal_differs {place}\n")
    assert files.contents() == before


def test_a_file_of_another_auction_is_refused(files: Files) -> None:
    files.second.write_bytes(journal_of(OTHER_SETUP, TEXTS))
    before = files.contents()
    place = next(at for at, (a, b) in enumerate(zip(*before)) if a != b)
    assert refusal_of(files) == (1, f"fault: journal_differs {place}\n")
    assert files.contents() == before


def test_one_file_named_twice_is_refused(files: Files) -> None:
    files.second = files.first
    assert refusal_of(files) == (1, "fault: journal_busy\n")


def test_a_mirror_without_a_journal_is_refused(files: Files) -> None:
    with Server(files.program, files.setup, mirror=files.second) as server:
        assert not server.is_ready()
        assert server.ended() == (1, "fault: journal\n")
