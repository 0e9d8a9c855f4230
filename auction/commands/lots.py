"""Draws lots for the order of the bidders in a set-up, in which ties are broken without numbers.

Call it twice. FOLDER gets seed.json, which is secret, and lots.json. Publish lots.json, so that
others save it. Then comes a public draw that was announced before. With --draw and its result, 1 to
200 letters of printable ASCII, FOLDER gets order.json, with the seed, and setup.json, which is
SETUP with its bidders in the order of the lots. Make the auction from that, and put lots.json and
order.json into its folder `public`.

What is there already stays, so call it again after a crash. It prints what is to be published.
`auction verify` draws the order again.
"""
import argparse
import hashlib
import json
import pathlib
import secrets
import sys
from typing import Any

from auction.command import Command
from auction.conductor import disk
from auction.formats.lots import LOTS, ORDER, Lots, Order, ordered
from auction.formats.strict import published, value_in
from auction.formats.ties import SEED, bytes_of, checked_draw
from auction.recount.formats import Refused, setup_in


def arguments(parser: argparse.ArgumentParser) -> None:
    parser.add_argument("setup", metavar="SETUP", type=pathlib.Path)
    parser.add_argument("folder", metavar="FOLDER", type=pathlib.Path)
    parser.add_argument("--draw", metavar="WORDS", help="the result of the public draw")


def publish(path: pathlib.Path, text: bytes, mode: int = disk.PUBLIC) -> None:
    """Writes a file, which nothing replaces."""
    if not path.exists():
        disk.store(path, text.decode(), mode)
    elif path.read_bytes() != text:
        raise ValueError(f"{path} is there and says something else: use a folder of its own")


def seed_in(folder: pathlib.Path) -> bytes:
    """The secret seed, which is drawn if there is none yet."""
    path = folder / "seed.json"
    if not path.exists():
        if (folder / LOTS).exists():
            raise ValueError(f"{folder / LOTS} is published, and {path} is lost")
        disk.store(path, json.dumps({"seed": secrets.token_hex(SEED)}) + "\n")
    return bytes_of(json.loads(path.read_bytes())["seed"], SEED)


def reordered(document: bytes, seed: bytes, draw: str) -> bytes:
    """The set-up with its bidders in the order of the lots."""
    value: dict[str, Any] = value_in(document)
    bidders = {bidder["name"]: bidder for bidder in value["bidders"]}
    value["bidders"] = [bidders[name] for name in ordered(bidders, seed, draw)]
    return (json.dumps(value, indent=1) + "\n").encode()


def run(given: argparse.Namespace) -> int:
    document, folder = given.setup.read_bytes(), given.folder
    try:
        names = [bidder.name for bidder in setup_in(document).bidders]
        disk.make_folder(folder, 0o700)
        with disk.locked(folder / ".lock"):
            is_drawn = (folder / LOTS).exists()
            seed = seed_in(folder)
            publish(folder / LOTS, published(Lots.drawn(names, seed).value()))
            if given.draw is None:
                print((folder / LOTS).read_text(), end="")
                return 0
            if not is_drawn or not checked_draw(given.draw):
                raise ValueError("publish lots.json first, and give the result of the draw")
            lots = hashlib.sha256((folder / LOTS).read_bytes()).hexdigest()
            publish(folder / ORDER, published(Order(given.draw, lots, seed.hex()).value()))
            publish(folder / "setup.json", reordered(document, seed, given.draw), disk.PRIVATE)
    except (OSError, Refused, ValueError) as fault:
        sys.exit(f"auction lots: {fault}")
    print((folder / ORDER).read_text(), end="")
    return 0


COMMAND = Command.of("lots", __doc__, arguments, run)
