"""An auction that `auction init` made, conducted to its end: people in browsers, and a program.

One product of four blocks is sold to five bidders. Each wants one block. Four bid in browsers, at
any price. The program follows the limit of 105. So it leaves in round 2, and the auction ends.
"""
import json
import os
import pathlib
import re
import shutil
import subprocess
import sys
import time
from collections.abc import Callable
from typing import Any

from auction.conductor.context import Context
from auction.conductor.plan import Plan
from auction.conductor.timetable import Window as Times
from tests.browser.window import Browser
from tests.lib import setups
from tests.lib.paths import AUCTION, EXAMPLES, PATHS, auction
from tests.lib.server import Server
from tests.lib.waiting import wait_for

WORKER = "www-data"
PEOPLE, PROGRAM = ("Ash", "Box", "Cedar", "Dogwood"), "Elm"
LIMITS = {"A": [105]}
PATIENCE = 120  # seconds
HOUR = 3600
# No time between rounds, and a busy machine may miss much of a window that a test shortens.
QUICK = {"drain": 0, "publish": 0, "between": 0, "notice": 0, "missed": 100}


def real_setup() -> dict[str, Any]:
    """The real auction's set-up."""
    bidders = [setups.bidder(name, f"{name}TokenOfTheReal1", 2) for name in (*PEOPLE, PROGRAM)]
    return setups.setup([setups.product("A", 4, 100, cap=2)], bidders)


class Ports:
    """The ports of the machine: those of the units, and those that a test uses instead."""

    def __init__(self, server: int, inside: int, outside: int) -> None:
        self.server, self.inside, self.outside = server, inside, outside

    def put(self, text: str) -> str:
        """A text with these ports, for this machine only."""
        text = text.replace("listen 8443", "listen 127.0.0.1:8443")
        text = re.sub(r"\n *listen \[::\][^\n]*", "", text)
        ports = {"8105": self.server, "8106": self.inside, "8443": self.outside}
        return re.sub(r"\b(8105|8106|8443)\b", lambda port: str(ports[port[0]]), text)


class Held:
    """A folder with its server, nginx, receipts, and conductor."""

    def __init__(self, folder: pathlib.Path, ports: Ports, program: pathlib.Path) -> None:
        self.folder, self.ports, self.program = folder, ports, program
        self.children: list[subprocess.Popen[bytes]] = []
        self.server: Server | None = None

    def make(self, setup: pathlib.Path, *words: str) -> None:
        """Makes the folder, with the test's ports and without time between rounds."""
        done = auction("init", self.folder, "--setup", setup, "--user", WORKER, *words)
        assert done.returncode == 0, done.stderr
        configuration = self.folder / "nginx.conf"
        configuration.write_text(self.ports.put(configuration.read_text()))
        settings = json.loads((self.folder / "conductor.json").read_text())
        settings |= {"url": f"http://127.0.0.1:{self.ports.inside}", "port": self.ports.server}
        (self.folder / "conductor.json").write_text(json.dumps({**settings, **QUICK}))

    def begin(self) -> None:
        """Starts what the units start."""
        files = (self.folder / "setup.json", self.folder / "auction.journal")
        self.server = Server(self.program, *files, port=self.ports.server).ready()
        nginx = shutil.which("nginx", path=PATHS) or "nginx"
        self.start(nginx, "-p", self.folder, "-c", "nginx.conf", "-g", "daemon off;")
        command = (sys.executable, AUCTION)
        parts = ("setup.json", "auction.journal", "kept", "receipts")
        self.start(*command, "receipts", *(self.folder / part for part in parts))
        self.start(*command, "run", self.folder)
        report = self.folder / "operator/conductor.json"
        wait_for("the conductor's report", report.exists, PATIENCE)

    def start(self, *words: object) -> None:
        with open(self.folder / "services.log", "ab") as log:
            child = subprocess.Popen(
                list(map(str, words)), stdin=subprocess.DEVNULL, stdout=log, stderr=log
            )
        self.children.append(child)

    def stop(self) -> None:
        """Stops what was started, the server last."""
        for child in self.children:
            child.terminate()
        for child in self.children:
            try:
                child.wait(PATIENCE)
            except subprocess.TimeoutExpired:
                child.kill()
                child.wait()
        self.children.clear()
        if self.server and self.server.child.poll() is None:
            self.server.kill()

    # ---- What is known

    @property
    def tokens(self) -> dict[str, str]:
        bidders = json.loads((self.folder / "setup.json").read_text())["bidders"]
        return {one["name"]: one["token"] for one in bidders}

    def public(self, name: str) -> Any:
        """A published file, or None if it is not there yet."""
        path = self.folder / "public" / name
        return json.loads(path.read_text()) if path.exists() else None

    @property
    def address(self) -> str:
        return f"https://localhost:{self.ports.outside}/"

    # ---- The timetable

    def change(self, change: Callable[[Plan], None]) -> None:
        """Changes the plan, as the operator's commands do."""
        with Context(self.folder, say=lambda line: None).changing() as plan:
            change(plan)

    def open(self, number: int) -> None:
        """Opens the window of a round for an hour, and waits until it is open."""
        begin = int(time.time()) // 10 * 10 + 10

        def change(plan: Plan) -> None:
            plan.windows[number] = Times(begin, begin + HOUR)

        self.change(change)
        wait_for(f"round {number} is open", lambda: any(self.gate.iterdir()), PATIENCE)
        wait_for(f"round {number} is announced", lambda: self.is_announced(number), PATIENCE)

    @property
    def gate(self) -> pathlib.Path:
        return self.folder / "gate"

    def is_announced(self, number: int) -> bool:
        announced = self.public("announcements.json") or {"announcements": []}
        words = f"Round {number} is open"
        return any(words in one["text"] for one in announced["announcements"])

    def shut(self, number: int) -> None:
        """Ends the window of a round, and waits until the round is published."""

        def change(plan: Plan) -> None:
            plan.windows[number].closes = int(time.time()) // 10 * 10 + 10

        self.change(change)
        wait_for(f"round {number} is published", lambda: self.is_over(number), PATIENCE)

    def is_over(self, number: int) -> bool:
        """Whether the timetable is past a round."""
        table = self.public("timetable.json")
        return bool(table["ended"] or table["round"] > number)


class Clerk:
    """A person of a bidder, with a window."""

    def __init__(self, browser: Browser, held: Held, name: str) -> None:
        self.window, self.held, self.name = browser.window(), held, name
        self.window.open(held.address, held.tokens[name])
        self.window.until("the table is there", lambda: self.window.rows("body"))

    def bid(self, number: int) -> None:
        """Bids for one block at the clock price, and submits."""
        window = self.window
        window.until(f"round {number} is there", lambda: str(number) in window.text("round"))
        window.until("the table is there", lambda: window.rows("body"))

        def is_typed() -> bool:
            window.bid(0, 1, "")
            return window.value("quantity", 0) == "1"

        window.until("the page has the open window", lambda: "Open" in window.text("standing"))
        window.until("the bid is typed", is_typed)
        window.send("1 bid in force since")


class Program:
    """A running examples/bidder.py. `token` may be of another auction."""

    def __init__(self, held: Held, folder: pathlib.Path, token: str) -> None:
        folder.mkdir()
        (folder / "limits.json").write_text(json.dumps(LIMITS))
        self.said = folder / "said"
        environment = {**os.environ, "TOKEN": token, "CA": str(held.folder / "cert.pem")}
        command = [sys.executable, str(EXAMPLES / "bidder.py"), held.address, "limits.json"]
        with open(self.said, "w", encoding="utf-8") as said:
            self.process = subprocess.Popen(
                [*command, "--every", "0.2"],
                cwd=folder,
                stdin=subprocess.DEVNULL,
                stdout=said,
                stderr=said,
                env=environment,
            )

    def says(self, words: str) -> None:
        """Waits until it has said these words."""
        wait_for(f"the program says {words}", lambda: words in self.said.read_text(), PATIENCE)

    def stop(self) -> None:
        self.process.kill()
        self.process.wait()
