"""The command line of `auction`: one parser for all its commands."""
import argparse
import sys
from typing import Any

from auction import installed
from auction.command import Command
from auction.commands import (
    check_receipts,
    close,
    commit,
    conductor,
    desk,
    explain,
    fence,
    init,
    lots,
    maps,
    persons,
    practice,
    ready,
    receipts,
    record,
    recount,
    standby,
    submitted,
    take_over,
    verify,
)
from auction.faults import in_words

VERSION = "auction 1"
COMMANDS: tuple[Command, ...] = (
    lots.COMMAND,
    init.COMMAND,
    commit.COMMAND,
    maps.COMMAND,
    persons.COMMAND,
    ready.COMMAND,
    *conductor.COMMANDS,
    desk.COMMAND,
    close.COMMAND,
    receipts.COMMAND,
    submitted.COMMAND,
    standby.COMMAND,
    take_over.COMMAND,
    fence.COMMAND,
    record.COMMAND,
    verify.COMMAND,
    check_receipts.COMMAND,
    recount.COMMAND,
    explain.COMMAND,
    practice.COMMAND,
)


class Version(argparse.Action):
    """Prints the command's version, its commit, and the program's SHA-256, and ends."""

    def __call__(self, parser: argparse.ArgumentParser, *_: Any) -> None:
        print(f"{VERSION}\ncommit {installed.commit()}\n{installed.program_in_words()}")
        parser.exit(0)


def parser() -> argparse.ArgumentParser:
    """The parser of all commands."""
    whole = argparse.ArgumentParser(
        prog="auction",
        description="Runs an auction around the program clock_auction, and checks one.",
        allow_abbrev=False,
    )
    whole.add_argument(
        "--version", action=Version, nargs=0, help="print the version, commit, and program"
    )
    kinds = whole.add_subparsers(dest="command", metavar="COMMAND", required=True)
    for command in COMMANDS:
        one = kinds.add_parser(
            command.name,
            help=command.summary,
            description=f"{command.summary}\n\n{command.text}".strip(),
            formatter_class=argparse.RawDescriptionHelpFormatter,
            allow_abbrev=False,
        )
        command.arguments(one)
        one.set_defaults(run=command.run)
    return whole


def main(words: list[str] | None = None) -> int:
    """Runs one command. Returns its exit status."""
    try:
        given = parser().parse_args(words)
    except BrokenPipeError:
        return 1
    try:
        status: int = given.run(given)
    except BrokenPipeError:
        return 1
    except KeyboardInterrupt:
        sys.exit("stopped")
    except SystemExit as end:
        raise SystemExit(in_words(end.code) if isinstance(end.code, str) else end.code) from None
    except RecursionError:
        sys.exit(f"auction {given.command}: a file has too many brackets in each other")
    except (OSError, ValueError, LookupError, TypeError, AttributeError) as fault:
        form = "" if isinstance(fault, OSError) else "a file has not the form of docs/formats.md: "
        sys.exit(f"auction {given.command}: {form}{in_words(str(fault))}")
    return status
