"""A host of practices as an operator runs it, and people who play there."""
import concurrent.futures
import contextlib
import http.client
import json
import os
import pathlib
import shutil
import signal
import subprocess
import sys
from typing import Any, NamedTuple

from auction.practice.host import Host, Hosting
from auction.practice.hosted import Bounds
from auction.practice.options import Options
from auction.practice.places import Limits
from tests.lib.paths import CHANGING, TOP
from tests.lib.ports import free_port
from tests.lib.waiting import wait_for

TOKEN = "PRACTICEPRACTICE"
USER = "nobody"
PATIENCE = 60  # seconds
PARTS = ("auction", "web", "examples")


class Reply(NamedTuple):
    """The status of a reply, its page, and where it leads."""

    status: int
    page: bytes
    location: str

    @property
    def json(self) -> Any:
        return json.loads(self.page)


def is_unproved(program: pathlib.Path) -> bool:
    """Whether a program is one of `rt try`, which reserves terabytes of addresses."""
    return b"AddressSanitizer" in program.read_bytes()


class Client:
    """Sends requests to a port of this machine, each over a connection of its own."""

    def __init__(self, port: int) -> None:
        self.port = port

    def ask(
        self, path: str, method: str = "GET", body: bytes | None = None, **headers: str
    ) -> Reply:
        link = http.client.HTTPConnection("127.0.0.1", self.port, timeout=PATIENCE)
        with contextlib.closing(link):
            link.request(method, path, body, headers)
            reply = link.getresponse()
            return Reply(reply.status, reply.read(), reply.getheader("location", ""))

    def begin(self) -> "Player":
        """Begins a game. It must get a place."""
        reply = self.ask("/games", "POST")
        assert reply.status == 303, reply
        return Player(self, reply.location.removesuffix("/begin.html"))


class Player:
    """A person with a game, who wants one block of each product at any price."""

    def __init__(self, client: Client, base: str) -> None:
        self.client, self.base = client, base

    def page(self, path: str) -> Any:
        reply = self.client.ask(self.base + path, authorization=f"Bearer {TOKEN}")
        assert reply.status == 200, reply
        return reply.json

    def prices(self, number: int) -> list[int]:
        """The clock prices of a round."""
        if number == 1:
            return [product["opening"] for product in self.page("/v1/products")["products"]]
        return [sold["next"] for sold in self.page(f"/v1/rounds/{number - 1}")["products"]]

    def bid(self, number: int) -> None:
        demands = self.page("/v1/me")["demands"]
        bids = [
            {"product": place, "quantity": demand or 1, "price": price}
            for place, (demand, price) in enumerate(zip(demands, self.prices(number)))
            if demand or number == 1
        ]
        body = json.dumps({"bids": bids, "round": number}).encode()
        reply = self.client.ask(
            self.base + "/v1/me/bids", "PUT", body, authorization=f"Bearer {TOKEN}"
        )
        assert reply.status == 200, reply

    def play(self) -> str:
        """Plays to the end. Returns the last announcement."""
        while not (status := self.page("/v1/status"))["ended"]:
            number = status["round"]
            self.bid(number)
            wait_for(f"the end of round {number}", lambda: self.is_after(number), PATIENCE)
        wait_for("the outcome", lambda: "your gain is" in self.announced(), PATIENCE)
        return self.announced()

    def is_after(self, number: int) -> bool:
        status = self.page("/v1/status")
        return bool(status["ended"] or status["round"] > number)

    def announced(self) -> str:
        """The last announcement."""
        return str(self.page("/public/announcements.json")["announcements"][-1]["text"])


class Hosted:
    """`auction practice --host`, by a user of its own, from a copy of what is installed."""

    def __init__(self, folder: pathlib.Path, program: pathlib.Path, games: int) -> None:
        for part in PARTS:
            shutil.copytree(TOP / part, folder / part, ignore=CHANGING)
        shutil.copy(program, folder / "clock_auction")
        self.files, self.games = folder / "files", games
        self.files.mkdir()
        self.is_bounded = not is_unproved(program)
        self.port = free_port(games + 1)
        self.client = Client(self.port)
        words = f"--host --quick --seed 5 --games {games} --of-network {games} --port {self.port}"
        memory = 256 if self.is_bounded else 0
        words += f" --memory {memory} --folder {self.files} --program {folder / 'clock_auction'}"
        user: dict[str, Any] = {}
        if os.geteuid() == 0:
            shutil.chown(self.files, USER)
            user = {"user": USER, "group": "nogroup", "extra_groups": []}
        with open(folder / "said", "wb") as said:
            self.process = subprocess.Popen(
                [sys.executable, "-B", folder / "auction/bin/auction", "practice", *words.split()],
                stdin=subprocess.DEVNULL,
                stdout=said,
                stderr=said,
                cwd=folder,
                start_new_session=True,
                **user,
            )
        self.said = folder / "said"
        wait_for("the address", self.has_begun, PATIENCE)

    def has_begun(self) -> bool:
        assert self.process.poll() is None, self.said.read_text()
        return "Practice at" in self.said.read_text()

    def servers(self) -> list[int]:
        """The processes of the games' servers."""
        words = ["ps", "-o", "pid=", "--ppid", str(self.process.pid)]
        listed = subprocess.run(words, capture_output=True, text=True, check=False)
        return [int(word) for word in listed.stdout.split()]

    def end(self) -> int:
        """Ends it as systemd does. Returns its status."""
        if self.process.poll() is None:
            self.process.send_signal(signal.SIGTERM)
        return self.process.wait(PATIENCE)

    def stop(self) -> None:
        """Ends it, whatever it does."""
        with contextlib.suppress(subprocess.TimeoutExpired):
            self.end()
        if self.process.poll() is None:
            os.killpg(self.process.pid, signal.SIGKILL)
            self.process.wait()


def memory_of(process: int) -> float:
    """The MB of memory that a process uses."""
    for line in pathlib.Path(f"/proc/{process}/status").read_text().splitlines():
        if line.startswith("VmRSS"):
            return int(line.split()[1]) / 1024
    return 0.0


def limits_of(process: int) -> dict[str, str]:
    """The soft limits of a process, by name."""
    lines = pathlib.Path(f"/proc/{process}/limits").read_text().splitlines()[1:]
    return {line[:26].strip(): line[26:].split()[0] for line in lines}


class Small:
    """A host with some places, which looks for games to end only if a test says so."""

    def __init__(self, folder: pathlib.Path, program: pathlib.Path, games: int) -> None:
        memory = 0 if is_unproved(program) else 256
        asked = Options(seed=5, port=free_port(games + 1), seconds=600, quick=True)
        limits = Limits(games, games)
        self.host = Host(Hosting(asked, limits, Bounds(memory, 8)), program, folder)
        self.client = Client(asked.port)
        self.pool = concurrent.futures.ThreadPoolExecutor(1)
        self.pool.submit(self.host.serve_forever, 0.1)

    def key(self, player: Player) -> str:
        return player.base.removeprefix("/g/")

    def after(self, seconds: float) -> None:
        """Looks as if these seconds had passed since now."""
        clock = next(iter(self.host.games.values())).clock
        self.host.sweep(clock() + seconds)

    def stop(self) -> None:
        self.host.shutdown()
        self.host.server_close()
        self.host.stop()
        self.pool.shutdown()
