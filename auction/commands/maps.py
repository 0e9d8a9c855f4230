"""Prints what nginx reads of a set-up.

Without `--sheet`, bidders.map: a line for each bidder, from token line to name. nginx ignores case
when it compares these lines, so two tokens that differ only by case are refused. With `--sheet`,
sheet.conf: how long a sheet may be.
"""
import argparse
import json
import pathlib
import sys

from auction.command import Command
from auction.ready import maps


def arguments(parser: argparse.ArgumentParser) -> None:
    parser.add_argument("setup", metavar="SETUP", type=pathlib.Path)
    parser.add_argument("--sheet", action="store_true", help="print sheet.conf")


def run(given: argparse.Namespace) -> int:
    try:
        setup = json.loads(given.setup.read_text(encoding="utf-8"))
        print(maps.sheet_conf(setup) if given.sheet else maps.bidders_map(setup), end="")
    except maps.TokensFault as fault:
        sys.exit(str(fault))
    except (ValueError, LookupError, TypeError):
        advice = f"auction explain setup {given.setup}"
        sys.exit(f"{given.setup} is not a set-up. To see each error: {advice}")
    return 0


COMMAND = Command.of("maps", __doc__, arguments, run)
