"""nginx writes some bytes for each request, while they are read."""
import contextlib
import pathlib
import shutil
import threading
import time
from collections.abc import Iterator

import pytest

from auction.desk.counted import MOST, Counted
from tests.lib import site as lib
from tests.lib.site import Site
from tests.lib.tls import ADDRESSES
from tests.lib.waiting import wait_for
from tests.nginx.requests import asks_inside, get, head, statuses
from tests.nginx.running import BIDDERS, SETUP

pytestmark = [pytest.mark.early, pytest.mark.needs("nginx", "openssl")]

MANY, SECONDS = 150, 60


@pytest.fixture(scope="module")
def site() -> Iterator[Site]:
    """nginx without a server."""
    with lib.running(None, SETUP) as found:
        (found.folder / "public").mkdir(exist_ok=True)
        (found.folder / "public/timetable.json").write_text("{}")
        yield found


@contextlib.contextmanager
def read(site: Site) -> Iterator[Counted]:
    """What nginx writes is read: it may write all the time."""
    counted, over = Counted(site.folder), threading.Event()
    counted.allow(time.time())

    def allow() -> None:
        while not over.wait(1):
            counted.allow(time.time())

    thread = threading.Thread(target=allow)
    thread.start()
    try:
        yield counted
    finally:
        over.set()
        thread.join()
        shutil.rmtree(counted.marks)


def becomes(counted: Counted, code: str, count: int) -> None:
    """Waits until this number of replies with a status is counted, and no more."""

    def is_so() -> bool:
        counted.read_on()
        return counted.counts.codes[code] >= count

    wait_for(f"{count} times {code}", is_so, SECONDS)
    assert counted.counts.codes[code] == count


@pytest.mark.parametrize(
    "path, status", [("/public/timetable.json", 200), ("/none", 404), ("/v1/me", 401)]
)
def test_each_reply_is_counted(site: Site, path: str, status: int) -> None:
    """Also of public files, which are not in the log."""
    with read(site) as counted:
        for _ in range(3):
            assert get(site, path).status == status
        becomes(counted, str(status), 3)


def test_replies_at_the_operators_port_are_counted(site: Site) -> None:
    with read(site) as counted:
        assert asks_inside(site, "/none").status == 404
        becomes(counted, "404", 1)


@pytest.mark.parametrize("kind", ["bidder", "network"])
def test_refusals_as_too_often_are_counted_by_who_asks(site: Site, kind: str) -> None:
    token = BIDDERS[0].token if kind == "bidder" else None
    with read(site) as counted:
        texts = [head("GET", "/none", token)] * MANY
        found, _ = statuses(site.outside, texts, next(ADDRESSES))
        assert found[429] > 0
        becomes(counted, "429", found[429])
        assert dict(counted.counts.too_often) == {kind: found[429]}


def test_nothing_is_written_while_nobody_reads(site: Site) -> None:
    for _ in range(5):
        assert get(site, "/none").status == 404
    with read(site) as counted:
        assert get(site, "/v1/me").status == 401
        becomes(counted, "401", 1)
        assert counted.counts.codes["404"] == 0


def test_no_token_and_no_name_is_written(site: Site) -> None:
    with read(site) as counted:
        assert get(site, "/none", BIDDERS[1].token).status == 404
        becomes(counted, "404", 1)
    text = (site.folder / "tmp/counted.log").read_text()
    assert BIDDERS[1].token not in text and BIDDERS[1].name not in text.split()
    assert all(len(line) < 40 for line in text.splitlines())


@pytest.fixture
def counted(tmp_path: pathlib.Path) -> Counted:
    """A file that a test writes as nginx does."""
    (tmp_path / "tmp").mkdir()
    (tmp_path / "tmp/counted.log").write_bytes(b"500 network - -\n")
    return Counted(tmp_path)


def write(counted: Counted, data: bytes) -> None:
    with open(counted.path, "ab") as file:
        file.write(data)


def test_lines_of_before_are_not_counted_again(counted: Counted) -> None:
    write(counted, b"200 network - -\n")
    counted.read_on()
    assert dict(counted.counts.codes) == {"200": 1}


def test_half_a_line_is_counted_once_it_is_whole(counted: Counted) -> None:
    write(counted, b"200 net")
    counted.read_on()
    assert not counted.counts.codes
    write(counted, b"work - -\n")
    counted.read_on()
    assert dict(counted.counts.codes) == {"200": 1}


def test_a_long_file_is_emptied_and_counted_on(counted: Counted) -> None:
    line = b"404 network - server\n"
    count = MOST // len(line) + 1
    write(counted, line * count)
    while counted.end:
        counted.read_on()
    assert counted.path.stat().st_size == 0
    write(counted, line)
    counted.read_on()
    assert counted.counts.codes["404"] == counted.counts.connections == count + 1


def test_only_the_current_and_the_next_ten_seconds_are_marked(counted: Counted) -> None:
    for now in (1_000_000.0, 1_000_009.9, 1_000_010.0, 999_000.0):
        counted.allow(now)
        first = int(now) // 10
        found = {file.name for file in counted.marks.iterdir()}
        assert found == {str(first), str(first + 1)}


def test_a_file_that_is_not_there_has_no_line(tmp_path: pathlib.Path) -> None:
    counted = Counted(tmp_path)
    counted.read_on()
    assert not counted.counts.codes
