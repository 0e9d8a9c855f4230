"""The commands of the conductor, which runs an auction by its timetable.

FOLDER is nginx's, with conductor.json in it (docs/formats.md). A command and its announcement are
one write.
"""
import argparse
import fcntl
import json
import os
import pathlib
import sys
import time
from collections.abc import Callable
from typing import Any

from auction.command import Command
from auction.conductor import commands, report
from auction.conductor.clear import ClearFault, clear
from auction.conductor.commands import CommandFault
from auction.conductor.conductor import Conductor
from auction.conductor.context import Context
from auction.conductor.decision import table
from auction.conductor.settings import SettingsFault
from auction.conductor.timetable import TimetableFault

FOLDER = "FOLDER is nginx's, with conductor.json in it (docs/formats.md)."
RUN = f"""{FOLDER} The conductor opens and shuts the window,
closes each round once, publishes it, and continues. It remembers no step: what is next follows
from its plan, the server, and the files that are there. So it may be killed at any moment and
started again. A closing is on disk before it is sent, as with `auction close`.

A round waits for your word, `auction next` or `auction extend`, if:
- nobody has a sheet in force;
- this conductor did not open its window;
- bidders missed more of its window than conductor.json allows;
- the clock was set by more than a second since its window was announced;
- its journal has lost sheets that it had;
- more pairs of bidder and product matter than a closing can list;
- the journal has changed since its closing was made, or the server refuses the closing."""

CLEAR = f"""{FOLDER} All files of the auction that are in it go to a new
folder in FOLDER/past: state, published and closed rounds, receipts, bidders.map, sheet.conf, the
set-up, and the journal. nginx's cache is emptied. conductor.json stays. It refuses while a server,
a conductor, a desk, `auction standby`, or the service of receipts runs. If it is killed, nothing
begins in FOLDER until you call it again."""

Action = Callable[[Context, argparse.Namespace], None]


class Rules(argparse.Action):
    """Prints the rules of the conductor, and ends."""

    def __call__(self, parser: argparse.ArgumentParser, *_: Any) -> None:
        print("\n".join(table()))
        parser.exit(0)


def run_auction(folder: pathlib.Path) -> None:
    """Runs the auction, unless another process does."""
    conductor = Conductor(folder, say=lambda line: print(line, flush=True))
    with open(conductor.context.folders.state / "run.lock", "w", encoding="utf-8") as lock:
        try:
            fcntl.flock(lock, fcntl.LOCK_EX | fcntl.LOCK_NB)
        except OSError:
            sys.exit("another conductor runs this auction")
        conductor.run()


def clear_folder(folder: pathlib.Path) -> None:
    """Puts an auction's files away."""
    past, left = clear(folder, time.time())
    print(f"The auction's files are in {past}.")
    for path in left:
        print(f"{path} is left: put it away too, unless the next auction has it.")


def status(context: Context, given: argparse.Namespace) -> None:
    """Prints the last report, in words or as the object of JSON that it is.

    The exit status is 0, 3 if it waits for a person, and 1 if nobody writes the report.
    """
    shown = report.shown(context.folders)
    if not shown:
        sys.exit("no conductor has run yet")
    if given.json:
        print(json.dumps(shown))
    else:
        say_report(context, shown)
    age = time.time() - report.time_of(shown)
    if age > report.STALE:
        sys.exit(
            f"this was written {age:.0f} s ago: no conductor is running, or a closing takes long"
        )
    if report.State(shown["state"]) in report.WAITS_FOR_A_PERSON:
        sys.exit(3)


def say_report(context: Context, shown: dict[str, Any]) -> None:
    """Prints a report in words, with the bidders that have a sheet in force."""
    print(f"{shown['state']}: {shown['waits_for']}")
    if shown["sheets"] is not None and shown["state"] != report.State.ENDED.value:
        missing = [name for name in context.setup.bidders if name not in shown["sheets"]]
        others = f"; not: {', '.join(missing)}" if missing else ""
        count = f"{len(shown['sheets'])} of {len(context.setup.bidders)}"
        print(f"{count} bidders have a sheet in force{others}")


def guarded(
    name: str, action: Callable[[argparse.Namespace], None]
) -> Callable[[argparse.Namespace], int]:
    """An action that ends with one line if it fails."""

    def run(given: argparse.Namespace) -> int:
        try:
            action(given)
        except (
            ClearFault,
            CommandFault,
            SettingsFault,
            TimetableFault,
            OSError,
            ValueError,
        ) as fault:
            sys.exit(f"auction {name}: {fault}")
        return 0

    return run


def add_folder(parser: argparse.ArgumentParser) -> None:
    parser.add_argument("folder", metavar="FOLDER", type=pathlib.Path)


def add_run(parser: argparse.ArgumentParser) -> None:
    add_folder(parser)
    words = "print the rules by which it decides, and end"
    parser.add_argument("--rules", action=Rules, nargs=0, help=words)


def add_status(parser: argparse.ArgumentParser) -> None:
    add_folder(parser)
    parser.add_argument("--json", action="store_true", help="print an object of JSON")


def add_file(parser: argparse.ArgumentParser) -> None:
    add_folder(parser)
    parser.add_argument("file", metavar="FILE", type=pathlib.Path)


def add_words(parser: argparse.ArgumentParser) -> None:
    add_folder(parser)
    parser.add_argument("words", metavar="WORDS", nargs="+")


def add_minutes(parser: argparse.ArgumentParser) -> None:
    add_folder(parser)
    parser.add_argument("minutes", metavar="MINUTES", type=float)


def add_minutes_or_ten(parser: argparse.ArgumentParser) -> None:
    add_folder(parser)
    parser.add_argument("minutes", metavar="MINUTES", nargs="?", type=float, default=10.0)


def add_round(parser: argparse.ArgumentParser) -> None:
    add_folder(parser)
    parser.add_argument("round", metavar="ROUND", type=int)
    parser.add_argument(
        "--without-sheets", action="store_true", help="close though nobody has a sheet in force"
    )
    parser.add_argument("--no-ties", action="store_true", help="close without tie-breaking numbers")


def command(
    name: str, summary: str, arguments: Callable[[argparse.ArgumentParser], None], action: Action
) -> Command:
    """A command about the auction of a folder."""

    def run(given: argparse.Namespace) -> None:
        os.umask(0o022)
        action(Context(given.folder.absolute()), given)

    return Command(name, summary, FOLDER, arguments, guarded(name, run))


COMMANDS = (
    Command(
        "run",
        "Runs an auction by its timetable, as the systemd unit does.",
        RUN,
        add_run,
        guarded("run", lambda given: run_auction(given.folder.absolute())),
    ),
    command(
        "status",
        "Prints what the conductor waits for; status 3 if that is a person.",
        add_status,
        status,
    ),
    command(
        "plan",
        "Takes a timetable for the rounds that have not begun.",
        add_file,
        lambda context, given: commands.plan(context, given.file),
    ),
    command(
        "check",
        "Prints the windows of a timetable in UTC, or why `plan` would refuse it now.",
        add_file,
        lambda context, given: commands.check(context, given.file),
    ),
    command(
        "pause",
        "Takes no more sheets, and says why.",
        add_words,
        lambda context, given: commands.pause(context, " ".join(given.words)),
    ),
    command(
        "resume",
        "Continues in MINUTES, or 10, for the time that was left.",
        add_minutes_or_ten,
        lambda context, given: commands.resume(context, given.minutes),
    ),
    command(
        "extend",
        "Adds time to the current window, or opens it again.",
        add_minutes,
        lambda context, given: commands.extend(context, given.minutes),
    ),
    command(
        "announce",
        "Announces something to everyone.",
        add_words,
        lambda context, given: commands.announce(context, " ".join(given.words)),
    ),
    command(
        "next",
        "Closes a round that waits for your word.",
        add_round,
        lambda context, given: commands.close_next(
            context, given.round, given.without_sheets, given.no_ties
        ),
    ),
    Command(
        "clear",
        "Puts an auction's files away, after its end.",
        CLEAR,
        add_folder,
        guarded("clear", lambda given: clear_folder(given.folder.absolute())),
    ),
    command(
        "winners",
        "Publishes what each bidder has won, after the end.",
        add_folder,
        lambda context, _: commands.winners(context),
    ),
)
