"""Clients that OpenAPI::Client generates from the description play an auction through nginx."""
import json
import os
import pathlib
import subprocess
from collections import Counter
from collections.abc import Iterator
from typing import Any

import pytest

from tests.lib.paths import EXAMPLES, TOP
from tests.lib.site import Site
from tests.lib.waiting import wait_for
from tests.schemas.port import page_of, site_of

pytestmark = pytest.mark.needs("nginx", "openssl", "perl", "OpenAPI::Client", "IO::Socket::SSL")

SECONDS = 60
REHEARSAL = json.loads((EXAMPLES / "rehearsal_version_2.json").read_text())
REPORT = (EXAMPLES / "rehearsal_version_2.txt").read_text().splitlines()
BIDDERS = REHEARSAL["setup"]["bidders"]


@pytest.fixture(scope="module")
def site(program: pathlib.Path) -> Iterator[Site]:
    """Program and nginx for the rehearsal's auction."""
    with site_of(program, REHEARSAL["setup"]) as site:
        yield site


def started(site: Site, bidder: Any, script: Any) -> subprocess.Popen[str]:
    """The client of a bidder with its script."""
    file = site.folder / f"{bidder['name']}.script"
    file.write_text(json.dumps(script))
    url = f"https://localhost:{site.outside}"
    return subprocess.Popen(
        [TOP / "tests/schemas/bidder.pl", url, str(file)],
        env={**os.environ, "TOKEN": bidder["token"], "MOJO_CA_FILE": str(site.folder / "cert.pem")},
        stdin=subprocess.DEVNULL,
        stdout=subprocess.PIPE,
        stderr=subprocess.PIPE,
        text=True,
    )


def have_sheets(site: Site, clients: list[subprocess.Popen[str]]) -> bool:
    """Whether each bidder has a sheet in force. Fails if a client has ended."""
    ended = [client.communicate() for client in clients if client.poll() is not None]
    assert ended == []
    pages = [page_of(site, "GET /v1/me/bids", bidder["token"]) for bidder in BIDDERS]
    return all(page["bids"] is not None for page in pages)


@pytest.fixture(scope="module")
def printed(site: Site) -> list[tuple[str, str]]:
    """What each client printed, and its errors."""
    clients = [started(site, *both) for both in zip(BIDDERS, REHEARSAL["scripts"])]
    try:
        for number, closing in enumerate(REHEARSAL["closings"], 1):
            wait_for(f"the sheets of round {number}", lambda: have_sheets(site, clients), SECONDS)
            body = json.dumps({**closing, "round": number}).encode()
            if page_of(site, "POST /v1/close", REHEARSAL["setup"]["operator"], body)["ended"]:
                break
        return [client.communicate(timeout=SECONDS) for client in clients]
    finally:
        for client in clients:
            client.kill()


def test_generated_clients_find_each_reply_described(printed: list[tuple[str, str]]) -> None:
    assert [errors for _, errors in printed] == [""] * len(BIDDERS)


def test_generated_clients_win_what_the_rehearsal_has(printed: list[tuple[str, str]]) -> None:
    last = [output.splitlines()[-1:] for output, _ in printed]
    assert last == [[line] for line in REPORT if line.startswith("won ")]


def test_generated_clients_use_each_operation_of_a_bidder(printed: list[tuple[str, str]]) -> None:
    came: Counter[str] = Counter()
    for output, _ in printed:
        came.update(line.split()[0] for line in output.splitlines()[:-1])
    operations = "account own_results products round_results sheet_in_force status submit_sheet"
    assert sorted(came) == sorted(operations.split())
