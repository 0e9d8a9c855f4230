"""Serves the manager's desk and the metrics, through nginx at the operator's port.

FOLDER is nginx's, with conductor.json in it (docs/formats.md). The people of the desk are the
operator, by its token, and those of FOLDER/desk.map, each by a token of its own. docs/operators.md
says what needs the word of two.

Each act is written to FOLDER/state/acts.jsonl before it begins. This may be killed at any moment
and started again.
"""
import argparse
import fcntl
import os
import pathlib
import sys
import threading

from auction.command import Command
from auction.conductor.context import Context
from auction.conductor.settings import SettingsFault
from auction.desk.desk import Desk, lock_of
from auction.desk.metrics import Meter
from auction.desk.service import Service


def arguments(parser: argparse.ArgumentParser) -> None:
    parser.add_argument("folder", metavar="FOLDER", type=pathlib.Path)


def say(line: str) -> None:
    print(line, flush=True)


def run(given: argparse.Namespace) -> int:
    os.umask(0o022)
    folder = given.folder.absolute()
    try:
        desk = Desk(folder, say=say)
        with open(lock_of(folder), "w", encoding="utf-8") as lock:
            try:
                fcntl.flock(lock, fcntl.LOCK_EX | fcntl.LOCK_NB)
            except OSError:
                sys.exit("auction desk: another desk serves this auction")
            serve(folder, desk)
    except (SettingsFault, OSError, ValueError) as fault:
        sys.exit(f"auction desk: {fault}")
    return 0


def serve(folder: pathlib.Path, desk: Desk) -> None:
    """Serves until it is stopped."""
    meter = Meter(Context(folder, say=say), folder)
    meter.look()
    threading.Thread(target=meter.watch, args=(say,), daemon=True).start()
    with Service(folder, desk, meter) as service:
        say(f"the desk of {folder} is served")
        service.serve_forever()


COMMAND = Command.of("desk", __doc__, arguments, run)
