"""What a practice serves at its address, and what it leaves after Ctrl+C."""
import json
import pathlib
import socket
import subprocess

import pytest

from tests.practice.conftest import Start
from tests.practice.practice import TOKEN, Practice

PATHS = {
    200: [
        "/",
        "/index.html",
        "/style.css",
        "/results.html",
        "/bidder.js",
        "/v1/status",
        "/v1/products",
        "/public/timetable.json",
        "/public/announcements.json",
    ],
    401: ["/v1/me", "/v1/me/bids"],
    404: [
        "/operator.html",
        "/operator.js",
        "/v1/results",
        "/v1/close",
        "/setup.json",
        "/values.json",
        "/package.json",
        "/public/winners.json",
        "/public/rounds/99.json",
        "/public/../setup.json",
        "/public/%2e%2e/setup.json",
        "/practicing/game.py",
        "/conductor.json",
    ],
}


@pytest.fixture(scope="module")
def practice(start: Start, tmp_path_factory: pytest.TempPathFactory) -> Practice:
    """A practice in round 1, which waits for the player."""
    practice = start(tmp_path_factory.mktemp("waiting") / "folder", "--quick", "--seed", "4")
    practice.until("Your token")
    return practice


@pytest.mark.parametrize(
    "status, path", [(status, path) for status, paths in PATHS.items() for path in paths]
)
def test_the_address_serves_the_pages_and_nothing_else(
    practice: Practice, status: int, path: str
) -> None:
    assert practice.asked(path)[0] == status


def test_the_players_token_opens_its_account(practice: Practice) -> None:
    page = json.loads(practice.asked("/v1/me", authorization=f"Bearer {TOKEN}")[1])
    assert page["name"] == "You"


def test_the_operators_token_opens_no_account(practice: Practice) -> None:
    operator = json.loads((practice.folder / "setup.json").read_text())["operator"]
    assert practice.asked("/v1/me", authorization=f"Bearer {operator}")[0] == 403


@pytest.mark.parametrize(
    "path, method, status", [("/index.html", "PUT", 405), ("/v1/me/bids", "POST", 501)]
)
def test_another_method_is_refused(practice: Practice, path: str, method: str, status: int) -> None:
    assert practice.asked(path, method)[0] == status


def test_another_name_for_this_machine_is_refused(practice: Practice) -> None:
    assert practice.asked("/", host=f"evil.test:{practice.port}")[0] == 400


def test_no_rival_is_named_where_all_may_read(practice: Practice) -> None:
    pages = [practice.asked(path)[1] for path in ("/public/timetable.json", "/v1/products")]
    bidders = json.loads((practice.folder / "setup.json").read_text())["bidders"]
    rivals = [bidder["name"] for bidder in bidders if bidder["name"] != "You"]
    assert rivals and [name for name in rivals if name.encode() in b"".join(pages)] == []


def test_ctrl_c_leaves_nothing(start: Start, tmp_path: pathlib.Path) -> None:
    practice = start(tmp_path / "folder", "--seed", "4")
    practice.until("Your token")
    assert practice.interrupt() == 0
    assert "The practice is over." in practice.said
    for port in (practice.port, practice.port + 1):
        with socket.socket() as asked:
            assert asked.connect_ex(("127.0.0.1", port)) != 0, "no one listens any more"
    listed = subprocess.run(["ps", "-eo", "stat,args"], capture_output=True, text=True).stdout
    lines = [line for line in listed.splitlines() if not line.startswith("Z")]
    assert [line for line in lines if str(practice.folder) in line] == []
