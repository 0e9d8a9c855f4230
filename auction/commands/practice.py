"""Plays an auction with you, on this machine: scripted rivals, a server, and your page.

It prints an address and a token: open the address in a browser, and enter with the token. It says
what each block is worth to you. Try to win blocks for less: the difference is your gain. Round 1
waits for your first bids. Each later round closes when everyone has bid, or after --seconds.

At the end it prints what you won, your gain, what a bidder that follows your values would have
gained, and which rounds cost you the difference. Then it recounts the auction from its journal.
Ctrl+C ends everything.

To practice your own auction, give its set-up document, or the page of `GET /v1/products`. Tokens in
it are replaced and never used.

Without a built program, it takes the unproved one of tools/try-program, which compiles it once in
some minutes.

With --host, it lets many people practice in their browsers, each in a game of their own. It prints
its address, and runs until it is stopped. The games are bounded in number, time, memory, and disk,
and idle ones end. It serves this machine only, or everyone if it has --certificate and --key. It
runs apart from a real auction: not as root, nor as a user who can enter /srv/auction, and with no
set-up that has tokens.
"""
import argparse
import pathlib
import secrets
import sys
from collections.abc import Callable

from auction.command import Command
from auction.practice import PracticeFault
from auction.practice.host import Hosting, host
from auction.practice.hosted import Bounds
from auction.practice.local import practice
from auction.practice.options import Options
from auction.practice.places import Limits

# Options by name: numbers with the least, the most and the default one; files; switches.
NUMBERS = [
    ("bidders", 2, 512, None, "how many bidders, with you (4)"),
    ("products", 1, 4096, None, "how many products (3)"),
    ("seconds", 1, 86_400, 120, "the longest time of a round (120)"),
    ("seed", 0, 2**32, None, "draws products and values; the same number draws the same"),
    ("port", 1, 65_534, 8300, "the page's port (8300); servers take the next ones"),
]
OF_HOST = [
    ("games", 1, 500, 32, "with --host: games at once (32)"),
    ("of-network", 1, 500, 16, "with --host: games at once from one network (16)"),
    ("minutes", 1, 1440, 120, "with --host: the longest time of a game (120)"),
    ("idle", 1, 1440, 20, "with --host: minutes without bids after which a game ends (20)"),
    ("memory", 0, 65_536, 256, "with --host: MB of a game's server (256); 0 for no bound"),
    ("disk", 1, 65_536, 8, "with --host: MB of a game's journal (8)"),
]
FILES = [
    ("setup", "FILE", "practice this auction: a set-up document, or a page of products"),
    ("values", "FILE", "your own values, in the form of the LIMITS of examples/bidder.py"),
    ("folder", "FOLDER", "an empty folder for all files (a new one under /tmp)"),
    ("program", "FILE", "the server's program, if it is neither built here nor on the path"),
    ("certificate", "FILE", "with --host: the certificate, for HTTPS at all addresses"),
    ("key", "FILE", "with --host: the key of the certificate"),
]
SWITCHES = [
    ("version-2", "an auction of version 2, with granules and an activity limit of 120 percent"),
    ("quick", "rivals bid at once, and a round closes as soon as everyone has bid"),
    ("demo", "plays your part too, by your values, and ends by itself"),
    ("host", "let many people practice in their browsers"),
]


def number_in(least: int, most: int) -> Callable[[str], int]:
    """A function for argparse that reads a whole number from `least` to `most`."""

    def read(text: str) -> int:
        if not text.isdecimal() or not least <= int(text) <= most:
            raise argparse.ArgumentTypeError(
                f"{text!r} is not a whole number from {least} to {most}"
            )
        return int(text)

    return read


def arguments(parser: argparse.ArgumentParser) -> None:
    for name, least, most, default, text in [*NUMBERS, *OF_HOST]:
        kind = number_in(least, most)
        parser.add_argument("--" + name, type=kind, default=default, metavar="N", help=text)
    for name, metavar, text in FILES:
        parser.add_argument("--" + name, type=pathlib.Path, metavar=metavar, help=text)
    for name, text in SWITCHES:
        parser.add_argument("--" + name, action="store_true", help=text)
    parser.add_argument(
        "--you",
        metavar="NAME",
        help="the bidder of the set-up document that you play (the first one)",
    )


def options(given: argparse.Namespace) -> Options:
    """What is asked for. A PracticeFault if it contradicts itself."""
    if given.setup and (given.version_2 or given.products):
        words = "--setup FILE says which products there are: leave out --products and --version-2"
        raise PracticeFault(words)
    if given.you and not given.setup:
        raise PracticeFault("--you NAME needs --setup FILE")
    return Options(
        seed=secrets.randbelow(1000) if given.seed is None else given.seed,
        port=given.port,
        seconds=given.seconds,
        bidders=given.bidders or 4,
        products=given.products or 3,
        version=2 if given.version_2 else 1,
        setup=given.setup,
        you=given.you,
        values=given.values,
        folder=given.folder,
        program=given.program,
        quick=given.quick,
        demo=given.demo,
    )


def hosting(given: argparse.Namespace, asked: Options) -> Hosting:
    """How the games are hosted."""
    if bool(given.certificate) != bool(given.key):
        raise PracticeFault("give both --certificate and --key, or neither")
    limits = Limits(given.games, given.of_network, 60 * given.minutes, 60 * given.idle)
    return Hosting(asked, limits, Bounds(given.memory, given.disk), given.certificate, given.key)


def run(given: argparse.Namespace) -> int:
    try:
        asked = options(given)
        if given.host:
            host(hosting(given, asked))
        else:
            practice(asked)
    except PracticeFault as fault:
        sys.exit(f"auction practice: {fault}")
    return 0


COMMAND = Command.of("practice", __doc__, arguments, run)
