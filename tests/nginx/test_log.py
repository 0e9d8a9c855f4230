"""What nginx's logs have, and that a full log holds up nobody."""
import json
import os
import signal
import subprocess
import time
from collections.abc import Iterator

import pytest

from tests.lib.site import Site
from tests.lib.tls import ADDRESSES, Client
from tests.lib.waiting import wait_for
from tests.nginx.recorder import Recorder
from tests.nginx.requests import (
    AT_ONCE,
    OPERATOR,
    UNKNOWN,
    Bidder,
    get,
    head,
    log_of,
    logged_from,
    put,
    statuses,
)
from tests.nginx.running import empty_cache

# Refused before nginx counts it, each by its head.
EARLY = {
    "TRACE": head("TRACE", "/v1/status"),
    "a body that is too long": head("PUT", "/v1/me/bids", None, "content-length: 1048577"),
    "a coding": head("PUT", "/v1/me/bids", None, "transfer-encoding: gzip"),
    "a line that is too long": head("PUT", "/v1/me/bids", None, f"x: {'y' * 5000}"),
    "no length": head("PUT", "/v1/me/bids", None, "content-length: x"),
}
HOSTILE = {
    "a byte that is no UTF-8": b"/\xff",
    "a letter that is cut": b"/" + b"a" * 190 + "é".encode() * 9,
    "DEL": b"/\x7f",
    "an escape of a terminal": b"/\x1b[2J",
    "a quotation mark and a backslash": b'/"\\',
    "an escaped line feed and NUL": b"/%0a%00",
    "a line separator": "/\u2028\u202e".encode(),
    "a tab": b"/x\ty",
}


def names_in(lines: list[str]) -> set[str]:
    """The names of bidders in lines of the log."""
    return {json.loads(line)["bidder"] for line in lines}


def test_the_log_names_bidders_and_has_no_tokens(
    site: Site, recorder: Recorder, bidder: Bidder
) -> None:
    for token in (bidder.token, None, UNKNOWN, OPERATOR):
        get(site, "/v1/me", token)
    wait_for("the lines of the log", lambda: names_in(log_of(site)) >= {bidder.name, ""}, 20)
    assert not any(bidder.token in line for line in log_of(site, "error.log"))


@pytest.mark.parametrize("text", EARLY.values(), ids=EARLY)
def test_what_is_refused_before_it_is_counted_is_in_no_log(
    site: Site, recorder: Recorder, text: bytes
) -> None:
    address = next(ADDRESSES)
    errors = log_of(site, "error.log")
    statuses(site.outside, [text], address)
    time.sleep(0.2)
    assert not logged_from(site, address)
    assert log_of(site, "error.log") == errors


@pytest.mark.parametrize("path", HOSTILE.values(), ids=HOSTILE)
def test_each_line_of_the_log_is_json_in_printable_ascii(
    site: Site, recorder: Recorder, path: bytes
) -> None:
    before = len(log_of(site))
    client = Client(site.outside)
    client.send(b"GET " + path + b" HTTP/1.1\r\nhost: x\r\n\r\n")
    if client.reply().status != 400:
        wait_for("its line", lambda: len(log_of(site)) > before, 20)
    for line in log_of(site)[before:]:
        assert line.isascii() and line.isprintable()
        assert json.loads(line)


def test_at_least_four_hostile_lines_are_logged(site: Site, recorder: Recorder) -> None:
    """Otherwise the test before would see none."""
    address = next(ADDRESSES)
    for path in HOSTILE.values():
        statuses(site.outside, [b"GET " + path + b" HTTP/1.1\r\nhost: x\r\n\r\n"], address)
    wait_for("their lines", lambda: len(logged_from(site, address)) >= 4, 20)


# ---- A full log


@pytest.fixture
def full(site: Site, recorder: Recorder) -> Iterator[Site]:
    """nginx with a log whose file system is full."""
    folder = site.folder / "log"
    subprocess.run(
        ["mount", "-t", "tmpfs", "-o", "size=64k,mode=755", "none", folder],
        check=True,
        capture_output=True,
    )
    try:
        (folder / "access.log").touch(0o600)
        site.nginx.send_signal(signal.SIGUSR1)
        wait_for("the new log", (folder / "error.log").exists, 30)
        for _ in range(6):
            statuses(site.outside, [head("GET", "/" + "x" * 190)] * AT_ONCE)
        assert os.statvfs(folder).f_bfree == 0
        yield site
    finally:
        subprocess.run(["umount", "--lazy", folder], check=True)  # nginx has it open
        site.nginx.send_signal(signal.SIGUSR1)
        before = len(log_of(site))
        wait_for("the old log", lambda: get(site, "/") and len(log_of(site)) > before, 20)


@pytest.mark.root
def test_a_full_log_changes_no_answer(full: Site, recorder: Recorder, bidder: Bidder) -> None:
    empty_cache(full)
    pages = ("/v1/products", "/v1/rounds/1", "/v1/status", "/v1/me")
    assert [get(full, page, bidder.token).status for page in pages] == [200] * 4
    assert put(full, bidder.token, b"{}").status == 200
    assert recorder.lines() == [*(f"GET {page}" for page in pages), "PUT /v1/me/bids"]
