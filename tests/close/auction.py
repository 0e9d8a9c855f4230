"""An auction whose rounds `auction close` closes, through a relay."""
import json
import os
import pathlib
import signal
import subprocess
import sys
from collections.abc import Collection, Iterable
from typing import Any, NamedTuple

from tests.close.relay import Relay
from tests.lib import setups
from tests.lib.paths import AUCTION
from tests.lib.served import Served, bid

WITHOUT_SHEETS = "--without-sheets"
FIXED = {"chain.json", "receipts.pem"}  # of `auction commit`, which a closing never changes
# A proxy of the shell's must never be asked, because it would see the token.
ENVIRONMENT = {**os.environ, "http_proxy": "http://127.0.0.1:9"}


class Said(NamedTuple):
    """What a call ended with: its status, its output, and its errors."""

    status: int
    output: str
    errors: str


def set_up(bidders: int, products: int, version: int = 1) -> dict[str, Any]:
    """A set-up in which each product has one block."""
    granule = 1 if version == 2 else None
    return setups.setup(
        [setups.product(f"P{number}", granule=granule) for number in range(products)],
        [setups.bidder(f"B{number}", token_of(number), products) for number in range(bidders)],
        limit=100 if version == 2 else None,
    )


def token_of(bidder: int) -> str:
    return f"T0KEN{bidder:011}"


class CloseAuction(Served):
    """A server, and a relay between it and `auction close`."""

    def __init__(self, program: pathlib.Path, folder: pathlib.Path, setup: object) -> None:
        super().__init__(program, folder, setup)
        self.relay = Relay(self.server.port)
        self.url_port = self.relay.port

    def stop(self) -> None:
        self.relay.stop()
        super().stop()

    # ---- Sheets

    def bid(self, bidder: int, products: Iterable[int], number: int = 1, price: int = 100) -> None:
        """Sends a bidder's sheet with a bid for one block of each of some products."""
        self.put(token_of(bidder), number, *(bid(1, price, product) for product in products))

    def all_bid(self, number: int = 1, price: int = 100) -> None:
        """Bidders 0 and 1 send a sheet for the first product."""
        for bidder in range(2):
            self.bid(bidder, [0], number, price)

    # ---- The command

    def words(
        self,
        increment: str = "10",
        *options: object,
        token: str = "operator.token",
        journal: str = "auction.journal",
    ) -> list[str]:
        """The words of `auction close`."""
        url = f"http://127.0.0.1:{self.url_port}"
        files = [self.folder / token, self.setup_file, self.folder / journal, self.kept]
        return [str(word) for word in ("close", url, *files, increment, *options)]

    def close(self, *words: object, typed: str = "", **files: str) -> Said:
        """Runs `auction close`, and types an answer."""
        done = self.run(*self.words(*map(str, words), **files), input=typed, env=ENVIRONMENT)
        return Said(done.returncode, done.stdout, done.stderr)

    def yes(self, number: int, increment: str = "10", *options: str, **files: str) -> Said:
        """Runs `auction close` for one round, without a question."""
        return self.close(increment, "--yes", number, *options, **files)

    def begin_close(self, *words: object) -> subprocess.Popen[str]:
        """Starts `auction close`, and does not wait for its end.

        Ctrl-C ends it, also if these tests run in the background, where it is ignored.
        """
        return subprocess.Popen(
            [sys.executable, str(AUCTION), *self.words(*map(str, words))],
            stdin=subprocess.PIPE,
            stdout=subprocess.PIPE,
            stderr=subprocess.PIPE,
            text=True,
            env=ENVIRONMENT,
            preexec_fn=lambda: signal.signal(signal.SIGINT, signal.SIG_DFL),
        )

    # ---- What it stored

    def stored(self, name: str) -> Any:
        """The value in a file of the closings' folder."""
        return json.loads((self.kept / name).read_text())

    def ties(self, number: int) -> list[list[int]]:
        """The tie-breaking numbers of a closing that is stored."""
        ties: list[list[int]] = self.stored(f"closing-{number}.json")["ties"]
        return ties

    def made(self) -> set[str]:
        """The files that closings made."""
        return {file.name for file in self.kept.glob("[!.]*")} - FIXED

    def nothing_was_closed(self) -> bool:
        """Whether the first round is open, and no closing is on disk."""
        return self.round() == 1 and not self.made()


def lists_each_once(ties: list[list[int]], pairs: Collection[tuple[int, int]]) -> bool:
    """Whether a list has each of these pairs once, with numbers that are all different."""
    listed = [(bidder, product) for bidder, product, _ in ties]
    return sorted(listed) == sorted(pairs) and len({number for *_, number in ties}) == len(ties)
