"""Two machines and the world of their bidders, each with processes, mounts, and a network.

A machine's /srv is a folder of the test. Bidders reach the auction at one address, which is moved
from one machine to the other. A machine is lost when all its processes are killed at once.
"""
import json
import pathlib
import subprocess
import sys
import time
from collections.abc import Callable
from typing import Any

from tests.lib.paths import AUCTION, EXAMPLES, PATHS, TOP
from tests.lib.waiting import wait_for

SERVICE = "10.105.0.5"  # the address of the auction
HOST = "auction.example"
FOLDER = "/srv/auction"
WORKER = "www-data"
SECONDS = 60
LONGEST = 1800  # seconds that a machine lasts
# A machine ends with the process that made it, also if that is killed.
ENDS_WITH_THE_TEST = ["setpriv", "--pdeathsig", "KILL", "--"]
QUIET = subprocess.DEVNULL
TEN = 10
END = """
import pathlib, sys
from auction.conductor.context import Context
from auction.desk.acts import Given, close_early
close_early(Context(pathlib.Path(sys.argv[1])), int(sys.argv[2]), Given(increments=(10,)))
"""


class Machine:
    """Namespaces of processes, mounts, and a network, with a folder as /srv."""

    def __init__(self, place: pathlib.Path, name: str) -> None:
        self.place, self.name = place / name, name
        self.place.mkdir(mode=0o755)
        self.place.chmod(0o755)
        self.folder = self.place / "auction"
        own = f"mount --bind {self.place} /srv && ip link set lo up && exec sleep {LONGEST}"
        flags = ["--net", "--mount", "--pid", "--fork", "--mount-proc", "--kill-child"]
        command = [*ENDS_WITH_THE_TEST, "unshare", *flags, "sh", "-c", own]
        self.child = subprocess.Popen(command, stdin=QUIET, stderr=QUIET)
        wait_for(f"{name} is up", self.is_up, SECONDS)
        self.children: list[subprocess.Popen[bytes]] = []

    def first(self) -> int:
        """The first process of the machine, by its number outside, or 0."""
        path = pathlib.Path(f"/proc/{self.child.pid}/task/{self.child.pid}/children")
        found = path.read_text().split()
        return int(found[0]) if found else 0

    def is_up(self) -> bool:
        number = self.first()
        return bool(number) and b"sleep" in pathlib.Path(f"/proc/{number}/cmdline").read_bytes()

    def inside(self, *words: object) -> list[str]:
        """A command's words, to run in the machine."""
        return ["nsenter", "-t", str(self.first()), "-n", "-m", "-p", "--", *map(str, words)]

    def run(self, *words: object) -> str:
        """Runs a command to its end. Returns what it prints."""
        command = self.inside(*words)
        done = subprocess.run(command, capture_output=True, text=True, timeout=SECONDS, stdin=QUIET)
        assert done.returncode == 0, (words, done.stdout, done.stderr)
        return done.stdout

    def auction(self, *words: object, status: int = 0, says: str = "") -> str:
        """Runs a command of `auction`. Returns all that it prints."""
        command = self.inside(sys.executable, AUCTION, *words)
        done = subprocess.run(command, capture_output=True, text=True, timeout=120, input=says)
        assert done.returncode == status, (words, done.stdout, done.stderr)
        return done.stdout + done.stderr

    def start(self, name: str, *words: object) -> subprocess.Popen[bytes]:
        """Starts a command that runs on. What it says is in a file of its name."""
        with open(self.place / f"{name}.said", "ab") as said:
            child = subprocess.Popen(self.inside(*words), stdin=QUIET, stdout=said, stderr=said)
        self.children.append(child)
        return child

    def said(self, name: str) -> str:
        return (self.place / f"{name}.said").read_text()

    def lose(self) -> None:
        """Kills all processes of the machine at once, as a loss of power does."""
        if self.child.poll() is None:
            if number := self.first():
                subprocess.run(["kill", "-KILL", str(number)], check=False)
            self.child.wait(SECONDS)
        for child in self.children:
            child.kill()
            child.wait(SECONDS)

    # ---- What runs an auction

    def serve(self, program: pathlib.Path) -> None:
        """Starts server, nginx, receipts, and conductor, and waits until they work."""
        files = [f"{FOLDER}/{name}" for name in ("setup.json", "auction.journal")]
        words = ["serve", "--setup", files[0], "--port", "8105", "--journal", files[1]]
        self.start("server", program, *words, "--connections", "1000000")
        wait_for("the server is ready", lambda: "ready 8105" in self.said("server"), SECONDS)
        nginx = ["nginx", "-p", FOLDER, "-c", "nginx.conf", "-g", "daemon off;"]
        self.start("nginx", "env", f"PATH={PATHS}", *nginx)
        signer = [sys.executable, AUCTION, "receipts", *files, f"{FOLDER}/kept"]
        refused = ["--refused", f"{FOLDER}/log/refused.log"]
        self.start("receipts", *signer, f"{FOLDER}/receipts", *refused)
        self.start("conductor", sys.executable, AUCTION, "run", FOLDER)
        wait_for("the conductor reports", lambda: self.report()["round"], SECONDS)

    def report(self) -> dict[str, Any]:
        """The conductor's report on this machine."""
        try:
            return json.loads((self.folder / "operator/conductor.json").read_text())
        except (OSError, ValueError):
            return {"state": "", "round": None}

    def page(self, name: str) -> Any:
        return json.loads((self.folder / name).read_text())

    def wait_for_state(self, state: str, number: int) -> None:
        """Waits until the conductor is in a state of a round."""
        wanted = (state, number)
        what = f"{wanted} on {self.name}"
        wait_for(what, lambda: (self.report()["state"], self.report()["round"]) == wanted, SECONDS)

    def plan(self) -> None:
        """Plans a window for the next round, which begins soon and lasts until it is ended."""
        for more in range(0, 50, TEN):
            opens = whole_ten(time.time() + 6 + more)
            (self.folder / "timetable.json").write_text(json.dumps(timetable(opens)))
            command = self.inside(
                sys.executable, AUCTION, "plan", FOLDER, f"{FOLDER}/timetable.json"
            )
            done = subprocess.run(command, capture_output=True, text=True, timeout=120)
            if not done.returncode:
                return
            too_early = "in the past", "the times in conductor.json need"
            assert any(words in done.stderr for words in too_early), done.stderr
        raise AssertionError("the machine is too slow to plan a window")

    def end_window(self, number: int) -> None:
        """Ends a round's window now, as the manager's desk does once two persons have said so."""
        if (self.report()["state"], self.report()["round"]) == ("open", number):
            words = ("env", f"PYTHONPATH={TOP}", sys.executable, "-c", END, FOLDER, number)
            self.run(*words)
            wait_for("the end of the window", lambda: self.report()["state"] != "open", SECONDS)


def whole_ten(seconds: float) -> int:
    return -int(-seconds // TEN) * TEN


def timetable(opens: int) -> object:
    """A timetable of one window of half an hour, in a zone in which it is noon."""
    hours = 12 - opens // 3600 % 24
    begin = time.gmtime(opens + 3600 * hours)
    end = time.gmtime(opens + 3600 * hours + 1800)
    words = f"{time.strftime('%H:%M:%S', begin)}-{time.strftime('%H:%M:%S', end)}"
    zone = f"Etc/GMT{-hours:+d}" if hours else "UTC"
    return {"zone": zone, "days": [{"date": time.strftime("%Y-%m-%d", begin), "windows": [words]}]}


LISTENER = """
import socket, subprocess, sys
listening = socket.create_server((sys.argv[1], 2222))
while True:
    peer, _ = listening.accept()
    words = b""
    while not words.endswith(b"\\n"):
        words += peer.recv(1)
    subprocess.Popen(["sh", "-c", words.decode()], stdin=peer, stdout=peer)
    peer.close()
"""
CLIENT = """
import os, socket, sys, threading
peer = socket.create_connection((sys.argv[1], 2222), 10)
peer.settimeout(None)
peer.sendall(sys.argv[2].encode() + b"\\n")
def out():
    while piece := peer.recv(65536):
        os.write(1, piece)
    os._exit(0)
threading.Thread(target=out, daemon=True).start()
while piece := os.read(0, 65536):
    peer.sendall(piece)
peer.shutdown(socket.SHUT_WR)
threading.Event().wait()
"""


class World:
    """Both machines, and the network of the bidders between them."""

    def __init__(self, place: pathlib.Path) -> None:
        self.place = place
        tools = place / "tools"
        tools.mkdir(mode=0o755)
        (tools / "listener.py").write_text(LISTENER)
        (tools / "client.py").write_text(CLIENT)
        write_script(tools / "auction", f'exec {sys.executable} {AUCTION} "$@"')
        write_script(tools / "shell", f'exec {sys.executable} {tools}/client.py "$@"')
        self.tools = tools
        self.bidders: list[subprocess.Popen[bytes]] = []
        self.machines: list[Machine] = []
        self.net, self.first, self.second = (self.machine(name) for name in ("net", "a", "b"))
        (place / "hosts").write_text(f"127.0.0.1 localhost\n{SERVICE} {HOST}\n")
        self.net.run("mount", "--bind", place / "hosts", "/etc/hosts")
        self.net.run("sh", "-c", "echo 1 > /proc/sys/net/ipv4/ip_forward")
        for number, machine in enumerate((self.first, self.second), 1):
            self.connect(number, machine)
        self.move_to(1)

    def machine(self, name: str) -> Machine:
        self.machines.append(Machine(self.place, name))
        return self.machines[-1]

    def connect(self, number: int, machine: Machine) -> None:
        """Connects a machine to the network. `auction` can be called there, as by ssh."""
        ours, theirs = f"10.105.{number}.1", f"10.105.{number}.2"
        link = ["ip", "link", "add", f"m{number}", "type", "veth", "peer", "name", "eth0", "netns"]
        inside = ["nsenter", "-t", str(self.net.first()), "-n", "--"]
        subprocess.run([*inside, *link, str(machine.first())], check=True, timeout=SECONDS)
        self.net.run("ip", "addr", "add", f"{ours}/24", "dev", f"m{number}")
        self.net.run("ip", "link", "set", f"m{number}", "up")
        machine.run("ip", "addr", "add", f"{theirs}/24", "dev", "eth0")
        machine.run("ip", "link", "set", "eth0", "up")
        machine.run("ip", "route", "add", "default", "via", ours)
        path = f"PATH={self.tools}:{PATHS}"
        machine.start("listener", "env", path, sys.executable, self.tools / "listener.py", theirs)

    def move_to(self, number: int) -> None:
        """Moves the auction's address to a machine."""
        machine = (self.first, self.second)[number - 1]
        machine.run("ip", "addr", "add", f"{SERVICE}/32", "dev", "lo")
        self.net.run("ip", "route", "replace", SERVICE, "via", f"10.105.{number}.2")

    def shell(self) -> list[str]:
        """The options with which commands reach the other machine."""
        return ["--shell", str(self.tools / "shell")]

    def bid(self, name: str, limits: list[int]) -> None:
        """Starts a bidder's program, in a folder of its name."""
        folder = self.place / name
        folder.mkdir()
        (folder / "limits.json").write_text(json.dumps({"A": limits}))
        certificate = self.first.folder / "cert.pem"
        given = ["env", f"TOKEN={name * 16}", f"CA={folder}/cert.pem"]
        (folder / "cert.pem").write_bytes(certificate.read_bytes())
        words = [sys.executable, EXAMPLES / "bidder.py", f"https://{HOST}:8443", "limits.json"]
        command = ["nsenter", "-t", str(self.net.first()), "-n", "-m", f"--wd={folder}", "--"]
        with open(folder / "said", "wb") as said, open(folder / "errors", "wb") as errors:
            words_in = [*command, *given, *map(str, words)]
            child = subprocess.Popen(words_in, stdin=QUIET, stdout=said, stderr=errors)
        self.bidders.append(child)

    def said(self, name: str) -> str:
        return (self.place / name / "said").read_text()

    def errors(self, name: str) -> list[str]:
        return (self.place / name / "errors").read_text().splitlines()

    def words(self) -> str:
        """All that the programs have said."""
        files = [
            *self.place.glob("*/*.said"),
            *self.place.glob("?/said"),
            *self.place.glob("?/errors"),
        ]
        return "\n".join(f"---- {path}\n{path.read_text()}" for path in files)

    def stop(self) -> None:
        for child in self.bidders:
            child.kill()
            child.wait(SECONDS)
        for machine in self.machines:
            machine.lose()


def write_script(path: pathlib.Path, text: str) -> None:
    path.write_text(f"#!/bin/sh\n{text}\n")
    path.chmod(0o755)


def until(what: str, condition: Callable[[], object]) -> None:
    wait_for(what, condition, SECONDS, every=0.1)
