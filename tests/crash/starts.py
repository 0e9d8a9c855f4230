"""Starts the program on each file that a power loss can leave."""
from collections import Counter
from dataclasses import dataclass, field
from functools import partial
from itertools import islice
from pathlib import Path

from tests.crash.auction import Auction, last_line
from tests.crash.moments import Moment, Texts
from tests.crash.order import fault_of_start
from tests.crash.record import calls_in
from tests.crash.shims import Shims
from tests.crash.states import Kind, State, states_of
from tests.lib.journals import HEAD
from tests.lib.runs import Run
from tests.lib.waiting import WORKERS, in_processes


def sample_of(kind: Kind) -> int:
    """`serve` also starts on one state in this number."""
    return 90 if kind.must_resume() else 8


@dataclass(frozen=True)
class Losses:
    """A recorded journal, and what `audit` prints of its first requests, for each number of them.

    The filler has the bytes that were on the disk before.
    """

    auction: Auction
    shims: Shims
    texts: Texts
    moments: list[Moment]
    audits: list[Run]
    filler: bytes


@dataclass
class Starts:
    """The starts on states: their counts, and what is wrong with them."""

    counts: Counter[str] = field(default_factory=Counter)
    faults: list[str] = field(default_factory=list)

    def add(self, state: State, found: Run, texts: Texts, fault: str | None) -> None:
        """Counts a state by its result, and notes its fault."""
        is_resumed = found.status == 0
        has_lost = texts.whole_in(state.file) < state.moment.replied
        self.counts["states"] += 1
        self.counts["resumed without a request that got a reply"] += is_resumed and has_lost
        self.faults += [f"{state}: {fault}"] if fault else []


def starts_on(losses: Losses, kind: Kind) -> Starts:
    """Starts the program on all states of a kind."""
    starts = Starts()
    for part in in_processes(partial(starts_of_worker, losses, kind)):
        starts.counts += part.counts
        starts.faults += part.faults
    return starts


def starts_of_worker(losses: Losses, kind: Kind, worker: int) -> Starts:
    """Starts the program on the states of a kind that are of this worker's number."""
    starts = Starts()
    states = states_of(losses.moments, losses.texts, losses.filler)
    mine = islice((state for state in states if state.kind == kind), worker, None, WORKERS)
    for number, state in enumerate(mine):
        file = losses.auction.journal_of(worker, state.file)
        found = losses.auction.audit(file)
        fault = fault_of_audit(state, found, losses.texts, losses.audits)
        if file.read_bytes() != state.file:
            fault = fault or "audit changed the file"
        if number % sample_of(kind) == 0:
            fault = fault or fault_of_serve(losses, file, state, found)
            starts.counts["served"] += 1
        starts.add(state, found, losses.texts, fault)
    return starts


def fault_of_audit(state: State, found: Run, texts: Texts, audits: list[Run]) -> str | None:
    """What is wrong with what `audit` prints of a state, which it must resume or refuse."""
    whole = texts.whole_in(state.file)
    if not state.least <= whole <= state.moment.most:
        return f"{whole} requests are there, not {state.least} to {state.moment.most}"
    if found.status == 0:
        return None if found == audits[whole] else f"not the auction of {whole} requests: {found}"
    if state.kind.must_resume():
        return f"the start is refused: {found.errors}"
    is_headed = state.file[:HEAD] == texts.journal[:HEAD]
    if state.has_head and not is_headed:
        return "the head is not there"
    damaged = (f"journal_damaged {texts.ends[whole]}",)
    faults = damaged if is_headed else ("journal_unknown", "journal_setup")
    refusals = [Run(1, "", f"fault: {fault}\n") for fault in faults]
    return None if found in refusals else f"the start is not refused by {faults}: {found}"


def fault_of_serve(losses: Losses, file: Path, state: State, audited: Run) -> str | None:
    """Starts a server on a state. What is wrong with its output, its file, and its calls."""
    auction, texts = losses.auction, losses.texts
    record = file.with_suffix(".record")
    environment = losses.shims.record(file, record)
    with auction.server(file, connections=1, environment=environment) as server:
        if audited.status != 0:
            if (ended := server.ended()) != (1, audited.errors):
                return f"serve ends with {ended}, audit with {audited}"
            return (
                None if file.read_bytes() == state.file else "serve changed a file that it refuses"
            )
    calls, end = calls_in(record), texts.ends[texts.whole_in(state.file)]
    if server.lines[:1] != [last_line(audited)]:
        return f"serve prints {server.lines}, audit {audited}"
    if file.read_bytes() != texts.journal[:end]:
        return f"serve leaves {file.read_bytes()!r}"
    # A crash during this start then leaves a length of this file, which is a state itself.
    kept = end if len(state.file) >= HEAD else 0
    if cuts := {call.number for call in calls if call.name == "ftruncate"} - {kept}:
        return f"serve truncates the file at {cuts}"
    return fault_of_start(calls, auction.setup.read_bytes(), len(state.file))
