"""Which process signs receipts, by its words and its working folder."""
import pathlib

import pytest

from auction.ready.published import signs

pytestmark = pytest.mark.early
FILES = ["setup.json", "auction.journal", "kept"]
RUNS = {
    "by-its-name": ["auction", "receipts"],
    "by-python": ["python3", "/opt/clock/auction/bin/auction", "receipts"],
    "by-python-with-options": ["/usr/bin/python3", "-B", "/opt/auction/bin/auction", "receipts"],
    "as-a-module": ["python3", "-m", "auction", "receipts"],
}
OTHERS = {
    "another-command": ["python3", "auction/bin/auction", "close"],
    "another-program": ["python3", "bin/auctions", "receipts"],
    "an-editor": ["vi", "receipts"],
    "no-words": [""],
}


@pytest.fixture
def folder(tmp_path: pathlib.Path) -> pathlib.Path:
    """The folder of receipts."""
    (tmp_path / "receipts").mkdir()
    return tmp_path / "receipts"


def process(tmp_path: pathlib.Path, words: list[str]) -> pathlib.Path:
    """A process as /proc shows it, which works in the auction's folder."""
    one = tmp_path / "1234"
    one.mkdir()
    (one / "cmdline").write_bytes(b"".join(word.encode() + b"\0" for word in words))
    (one / "cwd").symlink_to(tmp_path)
    return one


@pytest.mark.parametrize("words", RUNS.values(), ids=RUNS)
def test_the_service_signs(tmp_path: pathlib.Path, folder: pathlib.Path, words: list[str]) -> None:
    assert signs(process(tmp_path, [*words, *FILES, str(folder)]), folder)


def test_the_service_may_name_the_folder_by_a_path_from_where_it_works(
    tmp_path: pathlib.Path, folder: pathlib.Path
) -> None:
    assert signs(process(tmp_path, [*RUNS["by-python"], *FILES, "receipts"]), folder)


@pytest.mark.parametrize("words", OTHERS.values(), ids=OTHERS)
def test_another_process_does_not_sign(
    tmp_path: pathlib.Path, folder: pathlib.Path, words: list[str]
) -> None:
    assert not signs(process(tmp_path, [*words, *FILES, str(folder)]), folder)


def test_the_service_of_another_auction_does_not_sign(
    tmp_path: pathlib.Path, folder: pathlib.Path
) -> None:
    assert not signs(process(tmp_path, [*RUNS["by-python"], *FILES, "/other/receipts"]), folder)


def test_a_process_that_is_gone_does_not_sign(tmp_path: pathlib.Path, folder: pathlib.Path) -> None:
    assert not signs(tmp_path / "1234", folder)
