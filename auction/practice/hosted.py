"""One game of a hosted practice: its server, its player's page, and its end."""
import pathlib
import random
import re
import shutil
import threading
import time
from collections.abc import Callable
from typing import NamedTuple

from auction.practice import outcome
from auction.practice.local import notice_words
from auction.practice.options import Options
from auction.practice.places import Seen
from auction.practice.publishing import Board
from auction.practice.rounds import Pace, Rounds
from auction.practice.server import Server
from auction.ready.maps import sheet_conf

MB = 1_048_576
SECONDS_OF_PROCESSOR = 600  # of a game's server


class Bounds(NamedTuple):
    """What a game's server may use, in MB: memory, and each of its files.

    Memory of 0 is not bounded.
    """

    memory: int
    disk: int

    def words(self) -> tuple[str, ...]:
        """The words before a command that bound it."""
        return (
            "prlimit",
            *([f"--as={self.memory * MB}"] if self.memory else []),
            f"--fsize={self.disk * MB}",
            f"--cpu={SECONDS_OF_PROCESSOR}",
            "--core=0",
        )


class Place(NamedTuple):
    """What a game gets from its host."""

    key: str  # which nobody guesses
    number: int
    port: int
    folder: pathlib.Path


def silent(_: str) -> None:
    """Says nothing: the page has the announcements."""


class Hosted:
    """A game from its beginning to its end. Each call is safe in any thread."""

    def __init__(
        self, place: Place, network: str, clock: Callable[[], float] = time.monotonic
    ) -> None:
        self.place, self.network, self.clock = place, network, clock
        self.begun = self.acted = self.heard = clock()
        self.over: float | None = None
        self.failed = False
        self.longest = 0
        self.server: Server | None = None

    def begin(self, asked: Options, program: pathlib.Path, bounds: Bounds) -> None:
        """Starts the server, and the rounds in a thread. A PracticeFault if it does not start."""
        chance = random.Random(asked.seed + self.place.number)
        game = asked.game(chance)
        self.longest = int(re.findall(r"\d+", sheet_conf(game.setup))[0])
        self.place.folder.mkdir(mode=0o700)
        game.write(self.place.folder)
        server = Server(program, self.place.folder, self.place.port, bounds.words())
        self.server = server
        server.wait()
        board = Board(server.folder, notice_words(game), game.values[game.you], silent)
        board.announce("Round 1 is open. Enter your bids, and submit them. It closes after that.")
        rounds = Rounds(game, server, board, chance, Pace(asked.seconds, True, asked.quick))

        def play() -> None:
            try:
                ending = rounds.play()
                board.announce(outcome.ending_words(game, ending, server))
                board.timetable(len(ending.closings), True)
                self.over = self.clock()
            except Exception:  # whatever it is, only this game ends
                self.failed = True

        threading.Thread(target=play, daemon=True).start()

    def seen(self) -> Seen:
        """What decides when this game ends."""
        server = self.server
        ended = server is not None and server.process.poll() is not None
        failed = self.failed or ended
        return Seen(self.network, self.begun, self.acted, self.heard, self.over, failed)

    def note(self) -> None:
        """Notes a request of the game's page."""
        self.heard = self.clock()

    def note_bids(self) -> None:
        """Notes that the player's bids were accepted."""
        self.acted = self.clock()

    def stop(self) -> None:
        """Ends the server, and removes the game's files."""
        if self.server:
            self.server.stop()
        shutil.rmtree(self.place.folder, ignore_errors=True)
