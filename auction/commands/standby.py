"""Keeps another machine complete, so that it can take over the auction.

FOLDER is nginx's, with conductor.json in it. HOST is the other machine, where the same package is
installed, and `ssh HOST auction` runs as root. It gets FOLDER, and the journal where it is here:
set-up, secrets, certificate, plan, published files, notices, receipts, maps, and pages. Its folder
has a file fence.json, with which it serves nobody until `auction take-over`.

It sends what is new each second, the journal before all else, until it is stopped. It prints a line
when a round begins, and when something is wrong. FOLDER/state/standby.json says how far HOST is,
and `auction ready` reads it. With --once it sends all, says how far HOST is, and ends.
"""
import argparse
import contextlib
import dataclasses
import fcntl
import json
import pathlib
import sys
import time
from collections.abc import Iterator

from auction.command import Command
from auction.conductor import disk
from auction.formats.journal import JournalFault
from auction.standby import mark, shell
from auction.standby.frames import Line
from auction.standby.keeping import Unkept, keep
from auction.standby.sending import Passed, Refused, Sender

LOCK = "state/sending.lock"
AGAIN = 5  # seconds until the next try
FAULTS = (Refused, Unkept, JournalFault, OSError, ValueError)


def arguments(parser: argparse.ArgumentParser) -> None:
    parser.add_argument("folder", metavar="FOLDER", type=pathlib.Path)
    parser.add_argument("host", metavar="HOST", nargs="?")
    parser.add_argument("--once", action="store_true", help="send what is new, and end")
    parser.add_argument("--every", metavar="SECONDS", type=float, default=1.0)
    parser.add_argument("--shell", metavar="COMMAND", default=shell.USUAL, help="instead of ssh")
    parser.add_argument("--receive", action="store_true", help=argparse.SUPPRESS)


def say(line: str) -> None:
    print(line, flush=True)


def note(folder: pathlib.Path, host: str, passed: Passed) -> None:
    """Writes down how far the other machine is."""
    text = json.dumps({"host": host, **dataclasses.asdict(passed)}) + "\n"
    disk.show(folder / "state/standby.json", text, disk.PRIVATE)


@contextlib.contextmanager
def sending(folder: pathlib.Path) -> Iterator[None]:
    """While this lasts, nobody puts the auction away. Its copy would lose all files."""
    with open(folder / LOCK, "w", encoding="utf-8") as lock:
        try:
            fcntl.flock(lock, fcntl.LOCK_SH | fcntl.LOCK_NB)
        except OSError as error:
            raise Refused(f"`auction clear` runs: it has {folder / LOCK}") from error
        yield


def send(folder: pathlib.Path, given: argparse.Namespace) -> None:
    """Sends passes until something is wrong, or one with --once."""
    words, said = ["auction", "standby", str(folder), "--receive"], 0
    with shell.connected(given.shell, given.host, words) as line:
        sender = Sender(folder, line, time.time)
        sender.greet()
        while True:
            mark.check(folder)
            passed = sender.one_pass()
            note(folder, given.host, passed)
            if given.once or passed.round != said:
                say(passed.in_words(given.host))
            if given.once:
                line.send("end")
                return
            said = passed.round
            time.sleep(given.every)


def send_for_good(folder: pathlib.Path, given: argparse.Namespace) -> None:
    """Sends, and tries again whenever something is wrong, until this machine is fenced."""
    said = ""
    while True:
        try:
            send(folder, given)
        except mark.Marked:
            raise
        except FAULTS as fault:
            if str(fault) != said:
                say(f"{given.host} gets nothing, and is asked again: {fault}")
            said = str(fault)
        time.sleep(AGAIN)


def run(given: argparse.Namespace) -> int:
    folder = given.folder.absolute()
    try:
        if given.receive:
            keep(folder, Line(sys.stdin.buffer, sys.stdout.buffer), time.time)
        elif not given.host:
            sys.exit("auction standby: name the other machine")
        else:
            mark.check(folder)
            with sending(folder):
                (send if given.once else send_for_good)(folder, given)
    except FAULTS as fault:
        sys.exit(f"auction standby: {fault}")
    return 0


COMMAND = Command.of("standby", __doc__, arguments, run)
