"""An auction through nginx, and the same one at a second server without nginx."""
import asyncio
import json
import multiprocessing
import queue
import statistics
import time
from collections import Counter
from typing import Any, NamedTuple

from tests.lib import setups
from tests.lib.http import answer_to, text_of
from tests.lib.paths import auction
from tests.lib.server import Server
from tests.lib.site import Site
from tests.load import hostile
from tests.load.bidders import Bidder, Json

OPERATOR = "0PERAT0RS0WNT0KEN0NMACHINE"
MOST_ROUNDS, INCREMENT = 12, 30
FORK = multiprocessing.get_context("fork")


class Size(NamedTuple):
    """A half of the clients are bidders, a quarter are slow, and a quarter hostile."""

    clients: int
    products: int

    @property
    def bidders(self) -> int:
        return self.clients - 2 * (self.clients // 4)


def token_of(number: int, size: Size) -> str:
    """The token of a client. The bidders come first."""
    return f"{'GOOD' if number < size.bidders else 'RUDE'}{number:012}"


def setup_of(size: Size) -> Json:
    """The set-up. Slow and hostile clients have no eligibility."""
    supply = max(4, size.bidders * min(size.products, 40) * 2 // size.products // 3)
    products = [setups.product(f"P{n}", supply, 1000, cap=3) for n in range(size.products)]
    bidders = [
        setups.bidder(f"{kind}{number}", token_of(number, size), eligibility)
        for kind, numbers, eligibility in (
            ("G", range(size.bidders), 200),
            ("H", range(size.bidders, size.clients), 0),
        )
        for number in numbers
    ]
    return setups.setup(products, bidders, operator=OPERATOR)


class Auction:
    """Plays the auction. What differs between the servers goes to `differences`."""

    def __init__(self, site: Site, second: Server, size: Size, seconds: float) -> None:
        self.site, self.second, self.size = site, second, size
        self.end = time.monotonic() + seconds
        site.write_private("operator.token", OPERATOR)
        self.bidders = [
            Bidder(number, token_of(number, size), size.products, site.outside)
            for number in range(size.bidders)
        ]
        self.differences: list[str] = []
        self.compared = self.rounds = self.most_ties = 0
        self.waits: dict[str, list[float]] = {"alone": [], "with slow and hostile clients": []}
        self.counted: dict[str, Counter[str]] = {}
        self.faults: list[str] = []

    # ---- Slow and hostile clients

    def begin_others(self) -> None:
        """Starts the slow and the hostile clients."""
        numbers = range(self.size.bidders, self.size.clients)
        half = len(numbers) // 2
        self.is_over, self.results = FORK.Event(), FORK.Queue()
        self.processes = []
        for kind, part in (("slow", numbers[:half]), ("hostile", numbers[half:])):
            tokens = {number: token_of(number, self.size) for number in part}
            words = (kind, self.site.outside, tokens, OPERATOR, self.end, self.is_over)
            clients = hostile.Clients(*words)
            process = FORK.Process(target=hostile.play, args=(clients, self.results), daemon=True)
            process.start()
            self.processes.append(process)

    def end_others(self) -> None:
        """Ends them, and takes what they counted."""
        self.is_over.set()
        for _ in self.processes:
            try:
                kind, counted, found = self.results.get(timeout=20)
            except queue.Empty:
                self.faults.append("the slow or the hostile clients do not end")
                break
            self.counted[kind] = counted
            self.faults += found
        for process in self.processes:
            process.terminate()
            process.join(5)

    # ---- Rounds

    async def play(self) -> None:
        """Plays all rounds. The server is killed before each but the first."""
        await asyncio.gather(*[bidder.ask("GET", "/v1/products") for bidder in self.bidders])
        last = await self.round(1, None, "alone")
        self.begin_others()
        try:
            await asyncio.sleep(1)
            self.rounds = 1
            while not last["ended"]:
                self.rounds += 1
                assert self.rounds <= MOST_ROUNDS, "the auction does not end"
                self.site.kill()
                last = await self.round(self.rounds, last, "with slow and hostile clients")
        finally:
            self.end_others()
        for bidder in self.bidders:
            bidder.close()

    async def round(self, number: int, last: Json | None, phase: str) -> Json:
        """Plays a round at both servers, and compares all pages. Returns the round's."""
        for bidder in self.bidders:
            bidder.waits.clear()
        sheets = await asyncio.gather(*[bidder.bid(number, last) for bidder in self.bidders])
        for bidder, sheet in zip(self.bidders, sheets):
            self.compare(bidder, "GET /v1/me")
            self.compare(bidder, "PUT /v1/me/bids", json.dumps(sheet).encode())
            self.compare(bidder, "GET /v1/me/bids")
        self.close(number)
        pages = await asyncio.gather(*[bidder.look(number) for bidder in self.bidders])
        for bidder in self.bidders:
            self.compare(bidder, f"GET /v1/me/rounds/{number}")
            self.compare(bidder, f"GET /v1/rounds/{number}")
            self.waits[phase] += bidder.waits
        await self.see_status(number)
        return pages[0]

    async def see_status(self, closed: int) -> None:
        """Waits until the status has the closing: nginx may have one that is a second old."""
        end = time.monotonic() + 10
        while True:
            status = await self.bidders[0].ask("GET", "/v1/status")
            if status["ended"] or status["round"] > closed:
                return
            assert time.monotonic() < end, f"the status does not show the end of round {closed}"
            await asyncio.sleep(0.2)

    def at_second(self, line: str, token: str, body: bytes = b"") -> bytes:
        """The page of the second server."""
        return answer_to(self.second.port, text_of(line, token, body))[1]

    def note(self, what: str, found: object, wanted: object) -> None:
        """Notes a difference between the servers, if there is one."""
        self.compared += 1
        if found != wanted:
            self.differences.append(f"{what}: {str(found)[:300]} instead of {str(wanted)[:300]}")

    def compare(self, bidder: Bidder, line: str, body: bytes = b"") -> None:
        """Compares a bidder's page with that of the second server."""
        page = self.at_second(line, bidder.token, body)
        self.note(f"bidder {bidder.number}: {line}", bidder.seen[line], page)

    def close(self, number: int) -> None:
        """Closes the round at both servers with the same body. Compares sheets and results."""
        folder, url = self.site.folder, f"http://127.0.0.1:{self.site.inside}"
        names = ("operator.token", "setup.json", "auction.journal", "kept")
        words = (url, *(folder / name for name in names), INCREMENT, "--yes", number)
        ran = auction("close", *words)
        assert ran.returncode == 0, ran.stdout + ran.stderr
        (folder / "gate/open").touch()  # the closing has shut the doors
        body = (folder / f"kept/closing-{number}.json").read_bytes()
        self.most_ties = max(self.most_ties, len(json.loads(body)["ties"]))
        self.at_second("POST /v1/close", OPERATOR, body)
        for name, path in (("round", f"/v1/rounds/{number}"), ("results", "/v1/results")):
            stored = json.loads((folder / f"kept/{name}-{number}.json").read_text())
            for more in ("digest", "seed"):
                stored.pop(more, None)
            wanted: Any = json.loads(self.at_second(f"GET {path}", OPERATOR))
            self.note(f"{name}-{number}.json", json.dumps(stored), json.dumps(wanted))

    # ---- Figures

    def figures(self) -> list[str]:
        """How long the bidders waited, and what the slow and the hostile clients counted."""
        lines = []
        for phase, waits in self.waits.items():
            middle, most = statistics.median(waits), sorted(waits)[len(waits) * 99 // 100]
            lines.append(
                f"{phase}: {len(waits)} requests of {len(self.bidders)} bidders wait"
                f" {1000 * middle:.1f} ms in the median, and 99 of 100 at most {1000 * most:.0f} ms"
            )
        for kind, counted in self.counted.items():
            rows = ", ".join(f"{count} x {what}" for what, count in sorted(counted.items()))
            lines.append(f"{kind} clients: {rows}")
        lines.append(
            f"{self.rounds} rounds, {self.size.products} products, {self.size.clients} clients,"
            f" at most {self.most_ties} tie-breaking numbers; {self.compared} pages compared"
        )
        return lines
