"""A practice of one person on this machine."""
import pathlib
import random
import signal
import socket
import tempfile
import threading
import time

from auction.practice import PracticeFault
from auction.practice import game as games
from auction.practice import outcome
from auction.practice.game import Game
from auction.practice.options import Options
from auction.practice.pages import Desk
from auction.practice.publishing import Board
from auction.practice.rounds import Pace, Rounds
from auction.practice.server import Server, program_of

SHOWN = 20  # The products whose values the terminal lists.
ENDINGS = (signal.SIGINT, signal.SIGTERM, signal.SIGHUP)


def folder_of(given: pathlib.Path | None) -> pathlib.Path:
    """The folder for everything, which only its owner may read."""
    folder = (given or pathlib.Path(tempfile.mkdtemp(prefix="practice-"))).absolute()
    folder.mkdir(mode=0o700, parents=True, exist_ok=True)
    if any(folder.iterdir()):
        raise PracticeFault(f"{folder} is not empty: choose another folder.")
    return folder


def values_words(game: Game) -> str:
    """The player's values, a line for each product."""
    lines = [
        f"  {product['name']:<12}" + ("  ".join(f"${value:,}" for value in row) or "nothing")
        for product, row in zip(game.products, game.values[game.you])
    ]
    more = (
        [f"  .. and {len(lines) - SHOWN} more products, in values.json"]
        if len(lines) > SHOWN
        else []
    )
    return "\n".join([*lines[:SHOWN], *more])


def notice_words(game: Game) -> str:
    """The notice that the page always shows."""
    rivals = len(game.names) - 1
    return (
        f"This is a practice against {rivals} scripted {'rival' if rivals == 1 else 'rivals'}. "
        "The table says what each block is worth to you: the first one, the second, and so on. "
        "Win blocks for less than that; the difference is your gain."
    )


def desk_of(port: int, server: Server) -> Desk:
    """Starts the browser's address. A PracticeFault if the port is in use."""
    try:
        return Desk(port, server)
    except OSError as error:
        raise port_fault(port, error) from None


def port_fault(port: int, error: OSError) -> PracticeFault:
    return PracticeFault(f"Port {port}: {error.strerror}. Choose another one with --port.")


def check_server_port(port: int) -> None:
    """A PracticeFault if the server's port is in use."""
    with socket.socket() as free:
        free.setsockopt(socket.SOL_SOCKET, socket.SO_REUSEADDR, 1)
        try:
            free.bind(("127.0.0.1", port))
        except OSError as error:
            raise port_fault(port, error) from None


def play(asked: Options, game: Game, chance: random.Random, server: Server) -> None:
    """Serves the pages, plays the rounds, and prints how it ended."""
    board = Board(server.folder, notice_words(game), game.values[game.you])
    board.timetable(1, False)
    desk = desk_of(asked.port, server)
    server.wait()
    threading.Thread(target=desk.serve_forever, daemon=True).start()
    address = f"http://127.0.0.1:{asked.port}/"
    print(f"\n  Open        {address}\n  Your token  {games.TOKEN}")
    print(
        "\nWhat each block is worth to you: the first one, the second, and so on\n\n"
        + values_words(game)
    )
    print(f"\nThe public page, without a token: {address}results.html", flush=True)
    board.announce(
        "Round 1 is open. For each product, enter the number of blocks that you want, "
        "and submit your bids." + ("" if asked.demo else " The round closes after that.")
    )
    pace = Pace(asked.seconds, not asked.demo, asked.quick)
    ending = Rounds(game, server, board, chance, pace).play()
    board.announce(outcome.ending_words(game, ending, server))
    board.timetable(len(ending.closings), True)
    recount = outcome.recount_words(server.program, ending, server.folder)
    print(f"\n{recount}\n\nAll files are in {server.folder}.", flush=True)
    if not asked.demo:
        print("The pages stay up until you press Ctrl+C.", flush=True)
        while True:
            time.sleep(3600)


def practice(asked: Options) -> None:
    """Plays a practice from its beginning to its end, or to Ctrl+C."""
    chance = random.Random(asked.seed)
    game = asked.game(chance)
    check_server_port(asked.port + 1)
    for ending in ENDINGS:  # Ctrl+C too: a shell lets what it starts in the background ignore it
        signal.signal(ending, signal.default_int_handler)
    server = None
    try:
        program, folder = program_of(asked.program), folder_of(asked.folder)
        game.write(folder)
        size = f"{len(game.products)} products and {len(game.names)} bidders"
        print(f"A practice auction of {size}, drawn by --seed {asked.seed}.", flush=True)
        server = Server(program, folder, asked.port + 1)
        play(asked, game, chance, server)
    except KeyboardInterrupt:
        print("\nThe practice is over.")
    finally:
        for ending in ENDINGS:
            signal.signal(
                ending, signal.SIG_IGN
            )  # a second Ctrl+C must not leave the server running
        if server:
            server.stop()
