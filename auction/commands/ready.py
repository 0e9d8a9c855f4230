"""Looks at an auction before it opens.

FOLDER is nginx's. The set-up and the journal are those of FOLDER/conductor.json, or else setup.json
and auction.journal. NAME is the host that bidders use. GB is the space that the journal may need.

Run it as root, with server and nginx running. It prints a line for each check, which begins with
`ok` or `FAULT`, and then whether the auction is ready. With --json it prints one object instead.
The status is 0 if the auction is ready, and 1 if it is not. It changes nothing.
"""
import argparse
import json
import os
from pathlib import Path

from auction.command import Command
from auction.ready import certificate, files, machine, ports, published, standby
from auction.ready.auction import Auction

CHECKS = [
    *(*files.CHECKS, *published.CHECKS, *ports.CHECKS),
    *(*certificate.CHECKS, *machine.CHECKS, *standby.CHECKS),
]
GB = 1_000_000_000


def arguments(parser: argparse.ArgumentParser) -> None:
    parser.add_argument("folder", metavar="FOLDER", type=Path)
    parser.add_argument("--host", metavar="NAME", default="localhost")
    parser.add_argument("--setup", metavar="FILE", type=Path)
    parser.add_argument("--journal", metavar="FILE", type=Path)
    parser.add_argument("--space", metavar="GB", type=float, default=5)
    parser.add_argument("--json", action="store_true", help="print an object of JSON")


def lines_of(auction: Auction) -> tuple[bool, list[str]]:
    """Whether the auction is ready, and a line for each check."""
    found = [check.finding(auction) for check in CHECKS]
    return all(well for well, _ in found), [line for _, line in found]


def parts_of(line: str) -> dict[str, str | bool]:
    """A line of a check as an object: its name, whether all is well, and the words."""
    name, _, words = line[7:].partition(": ")
    return {"check": name, "ok": line.startswith("ok"), "words": words}


def named(folder: Path, key: str, usual: str) -> Path:
    """A file that the conductor's settings name, or the usual one."""
    try:
        return Path(folder / json.loads((folder / "conductor.json").read_bytes())[key])
    except (OSError, ValueError, LookupError, TypeError):
        return folder / usual


def run(given: argparse.Namespace) -> int:
    if os.geteuid():
        print("FAULT  ready: run it as root, who may read all files")
        return 1
    folder = given.folder.absolute()
    setup = given.setup or named(folder, "setup", "setup.json")
    journal = given.journal or named(folder, "journal", "auction.journal")
    well, lines = lines_of(Auction(folder, setup, journal, given.host, int(given.space * GB)))
    if given.json:
        print(json.dumps({"ready": well, "checks": [parts_of(line) for line in lines]}))
        return 0 if well else 1
    print("\n".join(lines))
    faults = sum(line.startswith("FAULT") for line in lines)
    end = f"{faults} of {len(lines)} checks found a fault"
    print(f"ready: {len(lines)} checks found no fault" if well else f"not ready: {end}")
    return 0 if well else 1


COMMAND = Command.of("ready", __doc__, arguments, run)
