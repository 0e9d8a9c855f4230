"""Reports every error in a document of clock_auction, or says what a fault of the server means.

FILE is the document, or - for standard input. If the program refuses the document, the first line
is the program's. The program is --program, or the one that was built in this repository, or
clock_auction on the PATH. Without a program, the auction of a document is not played. Only a server
judges all of a sheet or a closing.

Then come at most 50 errors, as FILE:LINE:COLUMN: PATH: WORDS. Lines and columns count from 1, list
entries from 0. If a document has the right form, the errors are what else the program refuses, such
as a cap above the supply. If it refuses something only while it plays the auction, the error is
where its line says. A key that occurs twice is a note, because the program accepts it.

With KIND fault, FILE is the server's last line, such as 'fault: bind', or - for lines of which the
last fault counts. This prints its cause, and what to do.

Exit status: 0 if there is no error, 1 if there is one, 2 if the arguments are wrong or the file
could not be read.
"""
import argparse
import pathlib
import shutil
import sys

from auction.command import Command
from auction.explain import endings

BUILT = pathlib.Path(__file__).resolve().parents[2] / "crates/clock_auction/out/clock_auction"
KINDS = ("setup", "opening", "replay", "sheet", "closing", "fault")


def arguments(parser: argparse.ArgumentParser) -> None:
    parser.add_argument("kind", metavar="KIND", choices=KINDS, help=", ".join(KINDS))
    parser.add_argument("file", metavar="FILE")
    parser.add_argument("--program", metavar="FILE")


def run_for_a_fault(words: str) -> int:
    """Says what the last fault of some lines means, and nothing if they have none."""
    text = sys.stdin.read() if words == "-" else words
    for line in endings.explained(text):
        print(line)
    return 0


def run(given: argparse.Namespace) -> int:
    if given.kind == "fault":
        return run_for_a_fault(given.file)
    try:
        from auction.explain.faults import explained  # which no other command needs
    except ModuleNotFoundError as error:
        print(f"auction explain needs Debian's package python3-{error.name}", file=sys.stderr)
        return 2
    try:
        is_file = given.file != "-"
        data = pathlib.Path(given.file).read_bytes() if is_file else sys.stdin.buffer.read()
        built = str(BUILT) if BUILT.exists() else shutil.which("clock_auction")
        lines, has_faults = explained(given.kind, given.file, data, given.program or built)
    except OSError as error:
        print(f"{given.file}: {error.strerror}" if error.strerror else error, file=sys.stderr)
        return 2
    sys.stdout.buffer.write("".join(f"{line}\n" for line in lines).encode(errors="replace"))
    return 1 if has_faults else 0


COMMAND = Command.of("explain", __doc__, arguments, run)
