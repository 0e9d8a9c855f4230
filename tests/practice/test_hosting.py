"""Many people practice at one address, each in a game of his own, within bounds."""
import concurrent.futures
import pathlib
import shutil
import socket
from collections.abc import Iterator

import pytest

from auction.practice.host import OF_A_GAME, OTHERS, network_of
from auction.practice.places import Why
from tests.lib.folders import open_folder
from tests.lib.waiting import wait_for
from tests.practice.hosting import (
    PATIENCE,
    TOKEN,
    Client,
    Hosted,
    Player,
    Small,
    limits_of,
    memory_of,
)

pytestmark = pytest.mark.needs("prlimit")

GAMES = 20
OF_HOST, OF_SERVER = 400, 120  # MB
MB = 1_048_576


@pytest.fixture(scope="module")
def crowd(program: pathlib.Path) -> Iterator[Hosted]:
    """A host with twenty places. Its tests run in order: the first one plays all its games."""
    with open_folder() as folder:
        host = Hosted(folder, program, GAMES)
        yield host
        host.stop()


def test_twenty_games_at_once_stay_in_their_bounds(crowd: Hosted) -> None:
    players = [crowd.client.begin() for _ in range(GAMES)]
    refused = crowd.client.ask("/games", "POST")
    assert refused.status == 503 and b"All places are taken." in refused.page
    with concurrent.futures.ThreadPoolExecutor(GAMES) as pool:
        ends = list(pool.map(Player.play, players))
    assert all("your gain is" in end and "follows your values" in end for end in ends)
    assert len(set(ends)) == GAMES, "each game has values of its own"
    servers = crowd.servers()
    assert len(servers) == GAMES
    assert memory_of(crowd.process.pid) < OF_HOST
    assert max(map(memory_of, servers)) < OF_SERVER
    for server in servers:
        limits = limits_of(server)
        assert limits["Max file size"] == str(8 * MB)
        assert limits["Max cpu time"] == "600"
        assert limits["Max core file size"] == "0"
        assert limits["Max address space"] == (str(256 * MB) if crowd.is_bounded else "unlimited")
    assert crowd.end() == 0
    assert list(crowd.said.parent.glob("files/*")) == []
    assert [pid for pid in servers if pathlib.Path(f"/proc/{pid}").exists()] == []


# ---- One host in this process, whose time a test says


def test_a_game_whose_page_is_closed_ends_and_its_place_is_free(small: Small) -> None:
    first, _ = small.client.begin(), small.client.begin()
    assert small.client.ask("/games", "POST").status == 503
    small.after(299)
    assert len(small.host.games) == 2
    small.after(301)
    assert not small.host.games and len(small.host.ports) == 2
    reply = small.client.ask(first.base + "/")
    assert reply.status == 404 and Why.LEFT.value.encode() in reply.page
    small.client.begin()


def test_a_page_that_only_polls_ends_for_idleness(small: Small) -> None:
    player = small.client.begin()
    game = small.host.games[small.key(player)]
    game.heard += 1200  # its page asks all the time
    small.after(1201)
    assert small.host.gone[small.key(player)] is Why.IDLE


def test_bids_keep_a_game(small: Small) -> None:
    player = small.client.begin()
    game = small.host.games[small.key(player)]
    game.acted -= 1200
    player.bid(1)
    small.after(0)
    assert small.key(player) in small.host.games


def test_a_refused_sheet_keeps_no_game(small: Small) -> None:
    player = small.client.begin()
    game = small.host.games[small.key(player)]
    game.acted -= 1200
    reply = small.client.ask(
        player.base + "/v1/me/bids", "PUT", b"{}", authorization=f"Bearer {TOKEN}"
    )
    assert reply.status == 422
    small.after(0)
    assert small.host.gone[small.key(player)] is Why.IDLE


def test_a_game_whose_server_ended_ends_alone(small: Small) -> None:
    first, second = small.client.begin(), small.client.begin()
    server = small.host.games[small.key(first)].server
    assert server
    server.process.kill()
    server.process.wait(PATIENCE)
    small.after(0)
    assert small.host.gone == {small.key(first): Why.FAILED}
    assert second.page("/v1/status")["round"] == 1


def test_an_ended_game_leaves_no_file_and_no_process(small: Small) -> None:
    player = small.client.begin()
    game = small.host.games[small.key(player)]
    assert game.server and game.place.folder.exists()
    small.after(301)
    assert not game.place.folder.exists()
    assert game.server.process.poll() is not None


PATHS = [
    "/operator.html",
    "/setup.json",
    "/values.json",
    "/server.log",
    "/auction.journal",
    "/v1/results",
    "/v1/close",
    "/public/../setup.json",
    "/public/%2e%2e/setup.json",
    "/../../setup.json",
]


@pytest.mark.parametrize("path", PATHS)
def test_a_game_shows_its_pages_and_nothing_else(small: Small, path: str) -> None:
    assert small.client.ask(small.client.begin().base + path).status == 404


@pytest.mark.parametrize("path", ["/index.html", "/results.html", "/v1/status", "/bidder.js"])
def test_a_game_has_the_pages_of_an_auction(small: Small, path: str) -> None:
    assert small.client.ask(small.client.begin().base + path).status == 200


@pytest.mark.parametrize("path", ["/v1/status", "/public/timetable.json", "/index.html"])
def test_the_hosts_address_is_no_game(small: Small, path: str) -> None:
    small.client.begin()
    assert small.client.ask(path).status == 404


def test_the_token_of_one_game_opens_its_own_game_only(small: Small) -> None:
    first, second = small.client.begin(), small.client.begin()
    first.bid(1)
    assert second.page("/v1/me/bids")["bids"] is None


def test_a_page_of_another_site_begins_no_game(small: Small) -> None:
    reply = small.client.ask("/games", "POST", **{"sec-fetch-site": "cross-site"})
    assert reply.status == 403 and not small.host.games


def test_a_long_sheet_is_refused_before_it_is_read(small: Small) -> None:
    path = small.client.begin().base + "/v1/me/bids"
    reply = small.client.ask(path, "PUT", None, **{"content-length": "1000000"})
    assert reply.status == 413


def test_more_connections_than_the_host_has_are_closed(small: Small) -> None:
    most = OF_A_GAME * 2 + OTHERS
    port = small.client.port
    held = [socket.create_connection(("127.0.0.1", port), PATIENCE) for _ in range(most)]
    with socket.create_connection(("127.0.0.1", port), PATIENCE) as more:
        assert more.recv(1) == b"", "it is closed without an answer"
    for each in held:
        each.close()
    wait_for("a free connection", lambda: answers(small.client), PATIENCE)


def answers(client: Client) -> bool:
    try:
        return client.ask("/").status == 200
    except OSError:
        return False


def test_a_program_that_does_not_start_takes_no_place(small: Small, tmp_path: pathlib.Path) -> None:
    small.host.program = pathlib.Path(shutil.which("false") or "false")
    assert small.client.ask("/games", "POST").status == 503
    small.after(0)
    assert not small.host.games and len(small.host.ports) == 2


@pytest.mark.parametrize(
    ("address", "network"),
    [
        ("192.0.2.7", "192.0.2.7/32"),
        ("::ffff:192.0.2.7", "192.0.2.7/32"),
        ("2001:db8:1:2:3:4:5:6", "2001:db8:1:2::/64"),
        ("fe80::1%eth0", "fe80::/64"),
    ],
)
def test_an_address_counts_for_its_network(address: str, network: str) -> None:
    assert network_of(address) == network
