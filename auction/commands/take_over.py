"""Takes over an auction on the machine to which `auction standby` has copied it.

FOLDER is the copy. First make sure that the first machine serves nobody any more, by one of these:
- --first HOST, if it runs: `auction fence` stops it there, and sends its last bytes;
- --cut-off COMMAND, which ends with status 0 once the machine is off, such as one of its power;
- --is-off, if you have seen to it yourself: it asks you once more.

Then it compares the copy with all that was published. --saved FOLDER has public files that somebody
else has saved, such as a bidder or another web server: these must agree too. Nobody may answer at
the bidders' address of conductor.json, nor at any --at HOST:PORT.

If all is well, it removes FOLDER/fence.json, so server, nginx, receipts, conductor, and desk can
start here, and continue with the same chain, key, announcements, and timetable. Otherwise it says
why not, and changes nothing.
"""
import argparse
import pathlib
import sys

from auction.command import Command
from auction.conductor.settings import SettingsFault
from auction.formats.journal import JournalFault
from auction.standby import shell
from auction.standby.fencing import UNITS
from auction.standby.taking import Means, NotTaken, take_over

FAULTS = (NotTaken, SettingsFault, JournalFault, OSError, ValueError)
START = f"systemctl enable --now {' '.join(reversed(UNITS))}"


def arguments(parser: argparse.ArgumentParser) -> None:
    parser.add_argument("folder", metavar="FOLDER", type=pathlib.Path)
    parser.add_argument("--first", metavar="HOST", default="")
    parser.add_argument("--cut-off", metavar="COMMAND", default="")
    parser.add_argument("--is-off", action="store_true", help="you have seen to it")
    parser.add_argument("--at", metavar="HOST:PORT", action="append", default=[])
    parser.add_argument("--saved", metavar="FOLDER", type=pathlib.Path)
    parser.add_argument("--clock-is-right", action="store_true")
    parser.add_argument("--shell", metavar="COMMAND", default=shell.USUAL, help="instead of ssh")


def is_sure() -> bool:
    """Whether a person types that the first machine is off."""
    print("Two machines that serve one auction ruin it. Type: it is off", flush=True)
    return sys.stdin.readline().strip() == "it is off"


def run(given: argparse.Namespace) -> int:
    if sum(map(bool, (given.first, given.cut_off, given.is_off))) != 1:
        sys.exit("auction take-over: give one of --first, --cut-off, and --is-off")
    if given.is_off and not is_sure():
        sys.exit("auction take-over: not taken over")
    means = Means(
        *(given.first, given.shell, given.cut_off, given.is_off, tuple(given.at)),
        *(given.saved, given.clock_is_right),
    )
    try:
        how = take_over(given.folder.absolute(), means)
    except FAULTS as fault:
        sys.exit(f"auction take-over: not taken over: {fault}")
    print(f"This machine has taken over. Of the first one: {how}.")
    print(f"Move the auction's address here, and start: {START}")
    return 0


COMMAND = Command.of("take-over", __doc__, arguments, run)
