"""A small auction under the conductor. Its server is real; its time passes only if a test says so.

The conductor can be killed at any of its steps, and is then started again.
"""
import contextlib
import functools
import json
import os
import pathlib
import shutil
import subprocess
import tempfile
from collections.abc import Callable, Iterator
from typing import Any

from auction.conductor import closing
from auction.conductor.commands import CommandFault
from auction.conductor.conductor import Conductor
from auction.conductor.context import Context
from auction.conductor.report import State
from auction.conductor.server import NoReply, Operator
from auction.conductor.timetable import Window
from tests.lib.clock import BEGIN, FakeClock
from tests.lib.disk import Disk, Killed
from tests.lib.http import reply_to, text_of
from tests.lib.ports import free_port
from tests.lib.server import Server
from tests.lib.setups import OPERATOR, bidder, product, setup
from tests.lib.site import commit

Times = list[tuple[int, int]]  # windows, in seconds after the beginning
WINDOWS: Times = [(60, 360), (420, 720), (780, 1080)]
MEMORY = "/dev/shm"  # a folder where a sync costs nothing, if there is one
SECRET = ("kept/chain.json", "kept/receipts.pem")


def small_setup(version: int = 1) -> dict[str, Any]:
    """One product with 2 blocks. X wants 2 and Y 1, so the auction lasts until X wants less."""
    second = version == 2
    only = product("A", 2, 100, granule=1 if second else None)
    bidders = [bidder(name, name * 16, 2) for name in "XY"]
    return setup([only], bidders, limit=100 if second else None)


@functools.cache
def committed(document: str) -> dict[str, bytes]:
    """The files of one commitment to this set-up, which all auctions of a process share."""
    with tempfile.TemporaryDirectory() as name:
        folder = pathlib.Path(name)
        (folder / "setup.json").write_text(document)
        commit(folder)
        names = (*SECRET, "public/commitment.json")
        return {file: (folder / file).read_bytes() for file in names}


class ConductedAuction:
    """A server with a journal, the conductor's folder, and what was seen.

    `states` has the conductor's reports, each once. `opens` has the rounds and times at which the
    gate was open to bidders. `sent` has the sheets that were accepted. The auction ends with round
    `rounds`, in which X wants one block less. `connections` are those that the
    conductor sees on their way to the server.
    """

    def __init__(
        self,
        program: pathlib.Path,
        windows: Times = WINDOWS,
        *,
        rounds: int = 3,
        document: dict[str, Any] | None = None,
        clock: Any = None,
        **settings: Any,
    ) -> None:
        self.program, self.rounds = program, rounds
        self.clock, self.connections = clock or FakeClock(), frozenset[str]()
        self.port, self.disk = free_port(), Disk()
        memory = MEMORY if os.path.isdir(MEMORY) else None
        self.folder = pathlib.Path(tempfile.mkdtemp(prefix="conductor-", dir=memory))
        self.states: list[tuple[float, State, str]] = []
        self.lines: list[str] = []
        self.opens: list[tuple[int, float]] = []
        self.sent: set[tuple[int, str]] = set()
        self.until = 0.0
        self.document = json.dumps(document or small_setup())
        self.write(self.document, settings)
        self.begin_server()
        self.conductor = self.fresh()
        if windows:
            self.plan(windows)

    def write(self, document: str, settings: dict[str, Any]) -> None:
        """Writes set-up, token, settings, and the commitment."""
        usual = {
            "url": f"http://127.0.0.1:{self.port}",
            "port": self.port,
            "setup": "setup.json",
            "token": "operator.token",
            "journal": "auction.journal",
            "publish": 0,
            "missed": 20,
            "between": 30,
            "notice": 60,
        }
        (self.folder / "setup.json").write_text(document)
        (self.folder / "operator.token").write_text(OPERATOR + "\n")
        (self.folder / "conductor.json").write_text(json.dumps({**usual, **settings}))
        for name, data in committed(document).items():
            (self.folder / name).parent.mkdir(exist_ok=True)
            (self.folder / name).write_bytes(data)

    # ---- What is started and ended

    def begin_server(self) -> None:
        files = (self.folder / "setup.json", self.folder / "auction.journal")
        self.server = Server(self.program, *files, port=self.port).ready()

    def kill_server(self) -> None:
        self.server.kill()

    def begin_again(self) -> None:
        """Begins another auction with the same set-up, in a folder that was cleared."""
        (self.folder / "setup.json").write_text(self.document)
        commit(self.folder)
        self.begin_server()
        self.conductor = self.fresh()

    def stop(self) -> None:
        if self.server.child.poll() is None:
            self.kill_server()
        shutil.rmtree(self.folder, ignore_errors=True)

    def fresh(self) -> Conductor:
        """The conductor, started again.

        A closing's request and its reply are steps too, between which it can be killed.
        """
        conductor = Conductor(self.folder, clock=self.clock, say=self.lines.append)
        ask = conductor.context.operator.ask

        def ask_in_steps(path: str, body: bytes | None = None, seconds: float = 300) -> Any:
            if body is None:
                return ask(path, body, seconds)
            self.disk.step("request")
            page = ask(path, body, seconds)
            self.disk.step("reply")
            return page

        self.let_ask(conductor, ask_in_steps)
        setattr(conductor.observer, "pending", lambda _port: self.connections)
        return conductor

    def let_ask(self, conductor: Conductor, ask: Callable[..., Any]) -> None:
        """Lets the conductor ask the server by this function."""
        setattr(conductor.context.operator, "ask", ask)

    def context(self) -> Context:
        """What a command has."""
        return Context(self.folder, clock=self.clock, say=self.lines.append)

    def operator(self) -> Operator:
        return Operator(f"http://127.0.0.1:{self.port}", OPERATOR)

    # ---- The plan

    def plan(self, windows: Times) -> None:
        """Plans these windows."""
        with self.context().changing() as plan:
            plan.windows = {
                number: Window(BEGIN + opens, BEGIN + closes)
                for number, (opens, closes) in enumerate(windows, 1)
            }

    def window(self, number: int) -> tuple[int, int]:
        """When a round's window opens and closes by the plan of now, after the beginning."""
        window = self.context().plan_file.read().windows[number]
        return window.opens - BEGIN, window.closes - BEGIN

    # ---- What happens

    def is_open(self) -> bool:
        """Whether nginx would take a sheet now."""
        return (self.folder / "gate" / str(int(self.clock.wall()) // 10)).exists()

    def put(self, name: str, number: int, quantity: int, price: int) -> bool:
        """Whether the server accepts a sheet."""
        bids = [{"price": price, "product": 0, "quantity": quantity}]
        body = json.dumps({"bids": bids, "round": number}).encode()
        text = text_of("PUT /v1/me/bids", name * 16, body)
        return b'"accepted":true' in reply_to(self.port, text)

    def bid(self, names: str = "XY") -> None:
        """Each bidder sends its sheet of this round, unless it was accepted before."""
        try:
            number = self.operator().page("/v1/status")["round"]
        except NoReply:
            return
        self.opens.append((number, self.clock.wall() - BEGIN))
        results = self.conductor.context.public.results(number - 1)
        price = results["products"][0]["next"] if results else 100
        for name in names:
            quantity = 2 if name == "X" and number < self.rounds else 1
            if (number, name) not in self.sent and self.put(name, number, quantity, price):
                self.sent.add((number, name))

    def close_by_hand(self, number: int, increment: int) -> None:
        """Closes a round as somebody other than the conductor, with the committed numbers."""
        ties = closing.listed_ties(self.conductor.context.auction, number, closing.Ties.OF_CHAIN)
        body = json.dumps({"increment": increment, "round": number, "ties": ties})
        self.operator().ask("/v1/close", body.encode())

    def look(self) -> State | None:
        """One look of the conductor. None if it was killed in it."""
        try:
            with self.disk.in_use():
                report = self.conductor.look()
        except Killed:
            return None
        self.until = report.until or 0.0
        if not self.states or self.states[-1][1:] != (report.state, report.words):
            self.states.append((self.clock.wall() - BEGIN, report.state, report.words))
        return report.state

    def obey(self, command: Callable[..., None], *words: Any, kill_at: int = 0) -> bool:
        """Gives a command, and kills it before one of its steps. Returns whether it was killed."""
        self.disk.count, self.disk.kill_at = 0, kill_at
        try:
            with self.disk.in_use():
                command(self.context(), *words)
        except Killed:
            return True
        finally:
            self.disk.kill_at = 0
        return False

    def play(
        self,
        until: State = State.ENDED,
        step: float = 10,
        most: int = 2000,
        bidders: str = "XY",
        after_kill: Callable[[], None] = lambda: None,
    ) -> None:
        """Looks each few seconds, and when the report says, until the state is this one.

        The bidders send sheets while the gate is open. A conductor that is killed is started again.
        """
        for _ in range(most):
            state = self.look()
            if state is None:
                after_kill()
                self.conductor = self.fresh()
                continue
            if state is until:
                return
            if self.is_open():
                self.bid(bidders)
            if state is not State.CLOSED:
                rest = self.until - self.clock.wall()
                least = min(step, rest) if rest > 0 else step
                self.clock.sleep(max(step, rest) if state is State.BEFORE else least)
        raise AssertionError(f"it came to no {until}: {self.states[-3:]}")

    def wait(self, seconds: float, step: float = 20) -> None:
        """Looks for some time, without bidders."""
        end = self.clock.wall() + seconds
        while self.clock.wall() < end:
            self.look()
            self.clock.sleep(step)

    # ---- What was seen

    @property
    def state(self) -> State:
        """The state of the last report."""
        return self.states[-1][1]

    @property
    def words(self) -> str:
        """The words of the last report."""
        return self.states[-1][2]

    def page(self, name: str) -> Any:
        """A file of the folder, as JSON."""
        return json.loads((self.folder / name).read_text())

    def announcements(self) -> list[dict[str, Any]]:
        return self.conductor.context.public.announcements()

    def announced(self, words: str) -> int:
        """How many announcements have these words."""
        return sum(words in one["text"] for one in self.announcements())

    def closed_at(self) -> list[float]:
        """When rounds were closed, after the beginning."""
        return [time for time, state, _ in self.states if state is State.CLOSED]

    def current_round(self) -> int:
        """The server's current round."""
        return self.operator().page("/v1/status")["round"]

    def audit(self) -> list[str]:
        """The lines that `clock_auction audit` prints of the journal."""
        words: list[str | pathlib.Path] = [self.program, "audit"]
        words += ["--setup", self.folder / "setup.json"]
        words += ["--journal", self.folder / "auction.journal"]
        ran = subprocess.run(words, capture_output=True, text=True, check=True)
        return ran.stdout.splitlines()


@contextlib.contextmanager
def conducted(program: pathlib.Path, *more: Any, **options: Any) -> Iterator[ConductedAuction]:
    """An auction that ends with this block."""
    auction = ConductedAuction(program, *more, **options)
    try:
        yield auction
    finally:
        auction.stop()


def refusal(command: Callable[..., None], *words: Any) -> str:
    """The words with which a command changes nothing, or nothing if it is carried out."""
    try:
        command(*words)
    except CommandFault as fault:
        return str(fault)
    return ""
