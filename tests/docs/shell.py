"""A shell in which the lines of a document are typed, with a folder and ports of its own."""
import json
import os
import pathlib
import re
import shutil
import signal
import subprocess
import time
from collections import Counter
from collections.abc import Callable, Iterable, Mapping, Sequence

from tests.lib.documents import comparable, typed_lines
from tests.lib.http import compact, reply_to, text_of
from tests.lib.paths import CHANGING, PATHS, TOP
from tests.lib.ports import free_port

PORTS = ("8105", "8106", "8443")
NOT_TYPED = ("apt-get ", "systemctl ")
DONE = "the line is typed"
OPERATOR = "OPERATOROPERATOR"
# What an operator's machine gets of the repository, and the examples that the guides name.
INSTALLED = ("auction", "services", "web", "examples")

Bids = Sequence[tuple[int, int, int]]  # each a product, a quantity, and a price
Moves = Iterable[tuple[str, Callable[[], object]]]


class Shell:
    """A shell with the program and the command `auction` on its path."""

    def __init__(self, folder: pathlib.Path, program: pathlib.Path, openapi: pathlib.Path) -> None:
        self.times: dict[str, str] = {}  # the times to type instead of the text's
        self.counts: Counter[str] = Counter()
        self.folder, self.background = folder, 0
        self.ports = {port: str(free_port()) for port in PORTS}
        (folder / "work").mkdir(parents=True)
        folder.chmod(0o755)  # nginx's workers are another user
        (folder / "work" / "examples").symlink_to(TOP / "examples")
        self.make_repository(openapi)
        (folder / "bin").mkdir()
        (folder / "bin" / "clock_auction").symlink_to(program)
        (folder / "bin" / "auction").symlink_to(folder / "repository/auction/bin/auction")
        environment = {
            **os.environ,
            "PATH": f"{folder / 'bin'}:{PATHS}",
            "REPO": str(folder / "repository"),
        }
        self.shell = subprocess.Popen(
            ["bash", "--norc"],
            cwd=folder / "work",
            env=environment,
            start_new_session=True,
            stdin=subprocess.PIPE,
            stdout=subprocess.PIPE,
            stderr=subprocess.STDOUT,
            text=True,
        )

    def make_repository(self, openapi: pathlib.Path) -> None:
        """Copies what is installed, with other ports in nginx's configuration, for this machine
        only.
        """
        repository = self.folder / "repository"
        for name in INSTALLED:
            shutil.copytree(TOP / name, repository / name, ignore=CHANGING)
        (repository / "schemas").mkdir()
        shutil.copy(openapi, repository / "schemas" / "openapi.json")
        configuration = repository / "services/nginx.conf"
        text = configuration.read_text().replace("listen 8443", "listen 127.0.0.1:8443")
        text = re.sub(r"\n *listen \[::\][^\n]*|\nuser [^\n]*", "", text)
        configuration.write_text(self.put_elsewhere(text))

    def put_elsewhere(self, text: str) -> str:
        """A text with this shell's ports and times in place of the guide's."""
        text = re.sub(r"\b(8105|8106|8443)\b", lambda port: self.ports[port[0]], text)
        for shown, typed in self.times.items():
            text = text.replace(shown, typed)
        # nginx's workers here are of Debian's default, or of this user
        group = " -g nogroup" if os.geteuid() == 0 else ""
        text = text.replace(" -g auction-nginx", group)
        text = text.replace("/usr/share/clock-auction", str(self.folder / "repository"))
        text = text.replace("/srv/mock", str(self.folder / "mock"))
        return text.replace("/srv/auction", str(self.folder / "auction"))

    # ---- What is typed

    def say(self, line: str) -> tuple[str, int]:
        """Types a line. Returns what it printed and its status."""
        assert self.shell.stdin and self.shell.stdout
        self.shell.stdin.write(f"{line}\nprintf '\\n{DONE} %s\\n' $?\n")
        self.shell.stdin.flush()
        found: list[str] = []
        for printed in self.shell.stdout:
            if printed.startswith(DONE):
                return "".join(found).strip("\n"), int(printed.split()[-1])
            found.append(printed)
        raise AssertionError(f"the shell ended after {line!r}: {''.join(found)}")

    def type_text(self, text: str, before: Moves = ()) -> None:
        """Types the lines of a text.

        `before` lists actions in order. Each is done once, before the next line that has its words.
        """
        moves = list(before)
        for command, output in typed_lines(text):
            if command.startswith(NOT_TYPED):
                self.counts["not typed"] += 1
                continue
            if moves and moves[0][0] in command:
                moves.pop(0)[1]()
            self.type(command, output)
        assert not [words for words, _ in moves], "lines before which something is done"

    def type(self, command: str, output: str) -> None:
        """Types a line of the text, and compares its output."""
        line = self.put_elsewhere(command).replace("curl ", "curl -s -m 20 ")
        wanted = self.put_elsewhere(output)
        self.counts["typed"] += 1
        if line.startswith("kill -KILL"):  # otherwise the shell reports the end of the job later
            line += " && { wait $! 2> /dev/null; true; }"
        if line.endswith("&"):
            found, status = self.begin(line.rstrip("& "), len(wanted.splitlines())), 0
        else:
            answers = "\n".join(re.findall(r"^type \d+ to close it: (.*)$", wanted, re.M))
            wanted = re.sub(r"(?m)^(type \d+ to close it: ).*\n", r"\1", wanted)
            found, status = self.say(f"{line} <<< '{answers}'" if answers else line)
        if wanted:
            assert comparable(found) == comparable(wanted), command
        fails = wanted.endswith("not closed") or wanted.startswith("fault: ")
        assert status == (1 if fails else 0), f"the status of {command}: {found}"

    def begin(self, line: str, lines: int) -> str:
        """Runs a line in the background. Returns its output once that has this number of lines."""
        log = self.folder / f"background-{self.background}"
        self.background += 1
        self.say(f"{line} > {log} 2>&1 &")
        for _ in range(500):
            if log.exists() and log.read_text().count("\n") >= lines:
                break
            time.sleep(0.02)
        return log.read_text().strip("\n")

    def serve(self, setup: str, connections: int = 1000) -> None:
        """Starts a server of a set-up of examples/ at the guide's port."""
        words = f"--setup examples/{setup} --port 8105 --connections {connections}"
        self.begin(self.put_elsewhere(f"clock_auction serve {words}"), 1)

    def start_services(self) -> None:
        """Starts what the units start: the server, nginx, and the receipts."""
        words = "--setup setup.json --port 8105 --connections 1000000 --journal auction.journal"
        self.begin(self.put_elsewhere(f"clock_auction serve {words}"), 2)
        assert self.say("nginx -p $PWD -c nginx.conf") == ("", 0)
        self.begin("auction receipts setup.json auction.journal kept receipts", 0)

    # ---- What other bidders and the operator do between two lines

    def ask(self, method: str, path: str, token: str, value: object = None) -> str:
        """Asks the server directly for a page, with another person's token."""
        body = b"" if value is None else compact(value)
        text = text_of(f"{method} {path}", token, body)
        return reply_to(int(self.ports["8105"]), text).partition(b"\r\n\r\n")[2].decode()

    def submit(self, letter: str, bids: object, number: int) -> str:
        """Submits a bidder's sheet. Returns the reply. A bidder's token is 16 times its letter."""
        return self.ask("PUT", "/v1/me/bids", letter * 16, {"bids": bids, "round": number})

    def bid(self, letter: str, bids: Bids, number: int) -> str:
        """Submits a sheet of some bids. Returns the reply."""
        return self.submit(letter, rows_of(bids), number)

    def play(self, sheets: Mapping[str, Bids], number: int) -> None:
        """Submits the sheets of a round, each of which must be accepted."""
        for letter, bids in sheets.items():
            page = json.loads(self.bid(letter, bids, number))
            assert page.get("accepted") is True, f"{letter}'s sheet of round {number}: {page}"

    def close(self, number: int, **increments: object) -> None:
        """Closes a round, which must be the current one."""
        page = self.ask("POST", "/v1/close", OPERATOR, {**increments, "round": number, "ties": []})
        assert json.loads(page).get("closed") == number, page

    def stop(self) -> None:
        """Ends the shell, what it started, and nginx, which is no child of it."""
        auction = self.folder / "auction"
        if auction.is_dir():
            self.say(f"nginx -p {auction} -c nginx.conf -s stop 2> /dev/null")
        try:
            os.killpg(self.shell.pid, signal.SIGTERM)
        except ProcessLookupError:
            pass
        self.shell.wait(10)


def rows_of(bids: Bids) -> list[dict[str, int]]:
    """The bids as the body of a sheet has them."""
    return [
        {"price": price, "product": product, "quantity": quantity}
        for product, quantity, price in bids
    ]
