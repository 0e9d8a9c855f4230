"""What the conductor waits for, for the operator: a file that it writes each second."""
import dataclasses
import datetime
import enum
import json
from typing import Any

from . import actions, disk, observed, stored
from .clock import in_words, utc
from .observed import Reason
from .settings import Folders

STALE = 15  # seconds after which nobody writes the report any more, or a closing takes long


class State(enum.Enum):
    """Where the auction is."""

    BEFORE = "before"
    OPEN = "open"
    DRAINING = "draining"
    HELD = "held"
    CLOSED = "closed"
    CURTAIN = "curtain"
    PAUSED = "paused"
    UNPLANNED = "unplanned"
    GONE = "gone"
    MISMATCH = "mismatch"
    ENDED = "ended"


# States that last until a person does something.
WAITS_FOR_A_PERSON = {State.HELD, State.PAUSED, State.UNPLANNED, State.GONE, State.MISMATCH}


@dataclasses.dataclass(frozen=True)
class Report:
    """The state, what it waits for in words, and until when, if that is known."""

    state: State
    words: str
    until: float | None = None


# What `auction next` must say to release a doubt.
OPTIONS = {Reason.NO_SHEETS: "--without-sheets", Reason.TOO_MANY_PAIRS: "--no-ties"}
SAME = {
    state.name: State[state.name] for state in observed.State if state.name in State.__members__
}
STATES = {
    **SAME,
    "STRANGER": State.MISMATCH,
    "PENDING": State.DRAINING,
    "FREEZING": State.DRAINING,
}


def report_of(wait: actions.Wait, seen: observed.Observed, doubts: list[str], fault: str) -> Report:
    """What the conductor waits for, in words for the operator.

    `doubts` are those that no word has released, in words. `fault` is why the server is not seen.
    """
    state, number = STATES[wait.state.name], current_round(seen)
    said = {
        State.MISMATCH: (
            f"The server is in round {number}, and round {seen.published} is published as closed: "
            "another server answers, or it has lost its journal. Tell bidders to stop."
        ),
        State.GONE: f"The conductor cannot continue, and tries again each second: {fault}",
        State.ENDED: f"The auction ended after round {number - 1}.",
        State.PAUSED: f"Round {number} is paused. To continue: resume.",
        State.UNPLANNED: f"Round {number} has no window. To give it one: plan FILE.",
    }
    later = f" It will wait for your word: {and_of(doubts)}." if doubts else ""
    if state in said:
        return Report(state, said[state] + (later if state is not State.MISMATCH else ""))
    if state is State.CURTAIN:
        shown = f"Its results are shown at {in_words(seen.gate.lifts)}."
        return Report(state, f"Round {number - 1} is closed. {shown}", wait.until)
    if state is State.HELD:
        return Report(state, held_words(seen, number, doubts))
    return Report(state, window_words(wait, number) + later, wait.until)


def window_words(wait: actions.Wait, number: int) -> str:
    """Where the current round's window is."""
    if wait.state is observed.State.PENDING:
        return f"Round {number} is shut. Requests are on their way to the server."
    if wait.state is observed.State.FREEZING:
        return f"Round {number} is shut. Its sheets are frozen next."
    if wait.state is observed.State.DRAINING:
        return f"Round {number} is shut. Requests that began in time may still end."
    assert wait.until is not None
    verb = "opens at" if wait.state is observed.State.BEFORE else "is open until"
    return f"Round {number} {verb} {in_words(wait.until)}."


def held_words(seen: observed.Observed, number: int, doubts: list[str]) -> str:
    """Why a round waits for a person, and what to type."""
    standing = seen.plan.doubts - seen.plan.released
    options = "".join(f" {option}" for reason, option in OPTIONS.items() if reason in standing)
    window = seen.plan.window
    is_over = window is None or seen.now >= window.closes
    what, then = ("is not closed", "close it") if is_over else ("takes no sheets", "continue")
    return (
        f"Round {number} {what}: {and_of(doubts)}. To {then}: next {number}{options}. "
        "To open its window again: extend MINUTES."
    )


def and_of(words: list[str]) -> str:
    return ", and ".join(words)


def current_round(seen: observed.Observed) -> int:
    """The current round, as far as it is known."""
    return (seen.published if seen.server is None else seen.server.closed) + 1


def show(
    folders: Folders, report: Report, number: int | None, sheets: list[str] | None, now: float
) -> None:
    """Writes the report for the operator's page and for `status`.

    A sheet in force is a secret of the operator's.
    """
    disk.show(
        folders.operator / "conductor.json",
        json.dumps(
            {
                "round": number,
                "sheets": sheets,
                "state": report.state.value,
                "time": utc(now),
                "until": None if report.until is None else utc(report.until),
                "waits_for": report.words,
            }
        )
        + "\n",
        0o640,
    )


def shown(folders: Folders) -> dict[str, Any] | None:
    """The last report, or None if there is none."""
    try:
        kinds = {"state": str, "time": str, "waits_for": str}
        return stored.read(folders.operator / "conductor.json", **kinds)
    except (FileNotFoundError, ValueError):
        return None


def time_of(shown: dict[str, Any]) -> float:
    """When a report was written, in UTC seconds."""
    return datetime.datetime.fromisoformat(shown["time"]).timestamp()
