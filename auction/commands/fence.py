"""Lets this machine serve the auction no more, for good.

FOLDER is nginx's, with conductor.json in it. It gets a file fence.json, with which no unit starts,
and no conductor or command changes anything. The gate is shut, server, nginx, and conductor end,
and it looks whether somebody still has the journal or listens at their ports. Then it says where
the journal ends.

`auction take-over` calls it on the first machine, and gets the last copy from it. Call it by hand
if a machine is back after another one has taken over. To give the auction back to this machine,
first make it the standby of the other one.
"""
import argparse
import pathlib
import sys
import time

from auction.command import Command
from auction.conductor.settings import SettingsFault
from auction.formats.journal import JournalFault
from auction.standby import fencing
from auction.standby.fencing import Unfenced
from auction.standby.frames import Line
from auction.standby.judge import End
from auction.standby.sending import Refused, Sender

FAULTS = (Unfenced, Refused, SettingsFault, JournalFault, OSError, ValueError)


def arguments(parser: argparse.ArgumentParser) -> None:
    parser.add_argument("folder", metavar="FOLDER", type=pathlib.Path)
    parser.add_argument("--taker", default="", help=argparse.SUPPRESS)
    parser.add_argument("--send", action="store_true", help=argparse.SUPPRESS)


def send_last(folder: pathlib.Path, line: Line, taker: str, end: End) -> None:
    """Says that this machine is fenced, and sends the last copy."""
    line.send("fenced", taker=taker, end=end.length, digest=end.digest)
    sender = Sender(folder, line, time.time)
    sender.greet()
    sender.one_pass()
    line.send("end")


def run(given: argparse.Namespace) -> int:
    folder, line = given.folder.absolute(), Line(sys.stdin.buffer, sys.stdout.buffer)
    try:
        fencing.forbid(folder, given.taker)
        with fencing.stopped(folder) as end:
            if given.send:
                send_last(folder, line, given.taker, end)
            else:
                print(f"fenced: the journal ends at byte {end.length}, {end.digest}")
    except FAULTS as fault:
        if given.send:
            line.send("refused", words=str(fault))
        sys.exit(f"auction fence: {fault}")
    return 0


COMMAND = Command.of("fence", __doc__, arguments, run)
