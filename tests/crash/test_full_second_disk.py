"""The disk of the second file is full, and that of the first is not."""
import contextlib
import os
import random
import shutil
import subprocess
import tempfile
from collections.abc import Iterator
from pathlib import Path

import pytest

from tests.crash.requests import Load
from tests.crash.two_files import Files, texts_in
from tests.lib.namespaces import own_network
from tests.lib.server import Server

pytestmark = [pytest.mark.needs("mount"), pytest.mark.root]
SMALL = ["mount", "-t", "tmpfs", "-o", "size=16k,mode=755", "none"]


@pytest.fixture
def files(program: Path) -> Iterator[Files]:
    """Two files, of which the second is on a disk of four pages."""
    with contextlib.ExitStack() as stack:
        try:
            stack.enter_context(own_network(with_mounts=True))
        except PermissionError:
            pytest.skip("needs namespaces")
        folder = Path(tempfile.mkdtemp(prefix="full-"))
        stack.callback(shutil.rmtree, folder, ignore_errors=True)
        made = Files(program, folder)
        disk = made.second.parent
        subprocess.run([*SMALL, disk], check=True)
        stack.callback(subprocess.call, ["umount", "--lazy", disk])
        yield made


@pytest.fixture
def load(files: Files) -> Load:
    """The requests that a server got until it ended, since its second disk took no more bytes."""
    load = Load(random.Random(105))
    with files.server() as server:
        load.send_to(server.port)
        assert server.ended() == (1, "fault: journal\n")
    assert os.statvfs(files.second.parent).f_bfree == 0
    return load


def test_each_request_with_a_reply_is_in_both_files(files: Files, load: Load) -> None:
    for content in files.contents():
        texts = texts_in(content)
        assert texts[: len(load.replied)] == load.replied != []
        assert set(texts[len(load.replied) :]) <= {load.waiting}


def test_a_start_on_the_full_disk_is_refused_and_changes_no_whole_record(
    files: Files, load: Load
) -> None:
    before = files.contents()
    assert len(before[0]) > len(before[1])
    with files.server() as server:
        assert server.ended() == (1, "fault: journal\n")
        assert server.lines == []
    assert files.contents()[0] == before[0]
    assert files.contents()[1].startswith(before[1])


def test_the_auction_continues_from_the_first_file(files: Files, load: Load) -> None:
    texts = texts_in(files.contents()[0])
    with Server(files.program, files.setup, files.first) as server:
        assert server.ready().lines[0].split()[:2] == ["journal", str(len(texts))]


def test_the_auction_continues_in_a_new_second_file(files: Files, load: Load) -> None:
    texts = texts_in(files.contents()[0])
    files.second = files.second.parent.parent / "two.journal"
    assert files.first_line().split()[:2] == ["journal", str(len(texts))]
    assert [texts_in(content) for content in files.contents()] == [texts, texts]


def test_the_auction_continues_from_a_copy_of_the_second_file(files: Files, load: Load) -> None:
    texts = texts_in(files.contents()[1])
    copy = shutil.copy(files.second, files.setup.parent / "copy.journal")
    with Server(files.program, files.setup, copy) as server:
        assert server.ready().lines[0].split()[:2] == ["journal", str(len(texts))]
