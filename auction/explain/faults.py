"""All faults of a document, with the program's own line if the program is there."""
import pathlib
import subprocess
from typing import NamedTuple

from auction.explain import form, rules
from auction.explain.reading import Document, NotJson, Path
from auction.explain.rules import shown

COMMANDS = {"setup": "prices", "opening": "opening", "replay": "replay"}
MOST_SHOWN, MOST_BYTES, MOST_BODY = 50, 67_108_864, 1_048_576


class Placed(NamedTuple):
    """A fault or a note at a place of the text."""

    place: int
    path: Path
    words: str


class Found(NamedTuple):
    """What was found: the text, its faults and notes, and the document if it is JSON."""

    text: str
    faults: list[Placed]
    notes: list[Placed]
    document: Document | None


def found_in(kind: str, data: bytes) -> Found:
    """The faults of a document, found without the program: those of its form, or else others.

    A repeated key is a note.
    """
    most = MOST_BYTES if kind in COMMANDS else MOST_BODY
    if len(data) > most:
        words = f"{len(data):,} bytes; at most {most:,} are allowed"
        return Found("", [Placed(0, (), words)], [], None)
    try:
        document = Document(data)
    except NotJson as fault:
        text, place, words = fault.args
        return Found(text, [Placed(place, (), f"not JSON: {words}")], [], None)
    faults = form.faults(kind, document.value)
    placed = [Placed(document.place(path, key), path, words) for path, words, key in faults]
    if not placed:
        found = rules.FAULTS[kind](document.value)
        placed = [Placed(document.place(path), path, words) for path, words in found]
    notes = [
        Placed(place, path, f'the key "{key}" occurs twice; the last one counts')
        for place, path, key in document.repeated()
    ]
    return Found(document.text, sorted(placed), notes, document)


def line_of(program: str | pathlib.Path, kind: str, data: bytes) -> str | None:
    """The program's line for a document: "" if it accepts it, None if it cannot be asked."""
    if kind not in COMMANDS:
        return None
    try:
        done = subprocess.run(
            [program, COMMANDS[kind]], input=data, capture_output=True, timeout=120
        )
    except (OSError, subprocess.TimeoutExpired):
        return None
    if done.returncode < 0:  # It was killed, so the document is not judged.
        return None
    return done.stderr.decode(errors="replace").strip() if done.returncode else ""


def in_play(line: str) -> tuple[Path, str] | None:
    """The path and the words of a fault that shows only when the auction is played."""
    match line.removeprefix("fault: ").split():
        case ["refused", bidder, number, code]:
            path: Path = ("scripts", int(bidder), "sheets", int(number) - 1)
            return path, f"the sheet of round {number} is refused: {code}"
        case ["closing", number, code]:
            return ("closings", int(number) - 1), f"the closing is refused: {code}"
        case ["closings_spent"]:
            return ("closings",), "the auction would continue, but no closing is left"
        case ["price_limit", product]:
            path = ("setup", "products", int(product), "opening")
            return path, "the next clock price would exceed 1,000,000,000,000"
    return None


def placed_in_play(line: str, document: Document | None) -> Placed:
    """The program's fault that nothing else has found."""
    played = in_play(line)
    if played is None or document is None:
        return Placed(0, (), f"the program reports {line!r}; its place is unknown here")
    try:
        return Placed(document.place(played[0]), *played)
    except (KeyError, IndexError):
        return Placed(document.begin, *played)


def shown_at(name: str, text: str, found: Placed) -> str:
    """The line of a fault or a note."""
    line = text.count("\n", 0, found.place) + 1
    column = found.place - text.rfind("\n", 0, found.place)
    return f"{name}:{line}:{column}: {shown(found.path)}: {found.words}"


def explained(
    kind: str, name: str, data: bytes, program: str | pathlib.Path | None
) -> tuple[list[str], bool]:
    """The lines to print of a document, and whether it has a fault."""
    text, faults, notes, document = found_in(kind, data)
    line = line_of(program, kind, data) if program else None
    if line and not faults:
        faults = [placed_in_play(line, document)]
    lines = [line] if line else []
    lines += [shown_at(name, text, fault) for fault in faults[:MOST_SHOWN]]
    lines += [f"and {len(faults) - MOST_SHOWN} more"] * (len(faults) > MOST_SHOWN)
    lines += [f"note: {shown_at(name, text, note)}" for note in notes[:MOST_SHOWN]]
    if not lines:
        why = "not played, since no program was found"
        why = why if kind in COMMANDS else "only a server judges the rest"
        lines = [f"{name}: no errors" + ("" if line == "" else f" ({why})")]
    return lines, bool(faults)
