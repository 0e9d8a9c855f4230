"""The conductor: it observes, decides, and carries out, until there is nothing to do but wait.

Only `decide` says what it does. It remembers no step: what is next follows from what it
observes. So it may be killed between any two actions, and started again.
"""
import dataclasses
from pathlib import Path
from typing import Any

from auction.formats.journal import JournalFault

from . import closing, disk, room
from .actions import (
    Action,
    AnnounceClosing,
    AnnounceOpen,
    Close,
    Fix,
    Freeze,
    Latch,
    NoteClock,
    NoteOpened,
    Publish,
    SetGate,
    Wait,
)
from .clock import in_words, utc
from .closing import NotClosed, Origin, Outcome, Ties
from .context import Context
from .decision import decide
from .increments import increments_for
from .observed import Observed, Reason
from .observer import Observer
from .plan import Plan, StrangePlan
from .public import opening_key
from .publisher import Publisher
from .report import Report, State, current_round, report_of, show
from .server import NoReply, Refused
from .watch import Watch

FAULTS = (NoReply, Refused, JournalFault, NotClosed, OSError, ValueError)
FRESH = 1.0  # seconds for which what was observed may decide that a closing is sent


class Conductor:
    """Looks once a second, and does what is due."""

    def __init__(self, folder: Path, **context: Any) -> None:
        self.context = Context(folder, **context)
        self.watch = Watch(self.context.folders, self.context.clock)
        self.observer = Observer(self.context, self.watch)
        self.publisher = Publisher(self.context)
        self.limits = self.context.settings.limits()
        self.warned = ""

    @property
    def number(self) -> int | None:
        """The round that the server named last."""
        return self.observer.round

    def run(self) -> None:
        """Runs the auction until it is stopped."""
        said = ""
        while True:
            report = self.look()
            if report.words != said:
                now = utc(self.context.clock.wall())
                self.context.say(f"{now} {report.state.value}: {report.words}")
            said = report.words
            wait = 1.0 if report.until is None else report.until - self.context.clock.wall()
            self.context.clock.sleep(min(1.0, max(0.01, wait)))

    def look(self) -> Report:
        """Does what is due, and reports what it waits for."""
        try:
            with self.context.changing() as plan:
                report = self.act(plan)
        except StrangePlan as fault:
            self.act(Plan("another auction's"))
            report = Report(State.MISMATCH, f"Nothing is opened or closed: {fault}")
        except FAULTS as fault:
            report = Report(
                State.GONE, f"The conductor cannot continue, and tries again each second: {fault}"
            )
        self.show(report)
        self.warn()
        return report

    def warn(self) -> None:
        """Says once in its log that the journal has little space left."""
        journal = self.context.settings.journal
        words = room.warning(room.length_of(journal), room.free_part(journal))
        if words and words != self.warned:
            self.context.say(f"{utc(self.context.clock.wall())} {words}")
        self.warned = words

    def show(self, report: Report) -> None:
        """Reports to the operator. A full disk must not end the conductor."""
        journal = self.context.journal
        sheets = journal.in_force() if journal.round == self.number else None
        try:
            self.watch.store()
            show(self.context.folders, report, self.number, sheets, self.watch.now)
        except OSError as fault:
            self.context.say(f"the report cannot be written: {fault}")

    def act(self, plan: Plan) -> Report:
        """Carries out one action after the other, up to one that waits."""
        closed = None
        while True:
            seen = self.observer.observe(plan)
            action = decide(seen, self.limits)
            if isinstance(action, Wait):
                self.context.gate.forget(self.watch.now)
                return closed or self.report(plan, seen, action)
            closed = self.carry_out(plan, seen, action) or closed

    def report(self, plan: Plan, seen: Observed, wait: Wait) -> Report:
        """What the conductor waits for, in words."""
        doubts = [one for one in plan.doubts_of(current_round(seen)) if not one.is_released]
        report = report_of(wait, seen, [one.in_words() for one in doubts], self.observer.fault)
        if report.state is State.PAUSED and plan.paused:
            words = report.words.replace("is paused.", f"is paused. {plan.paused.words}", 1)
            return dataclasses.replace(report, words=words)
        return report

    def carry_out(self, plan: Plan, seen: Observed, action: Action) -> Report | None:
        """Does one action. Returns a report if it closed a round."""
        match action:
            case SetGate(gate):
                self.context.gate.write(gate, self.watch.now)
            case NoteOpened(number):
                plan.windows[number].opened = self.watch.now
                plan.begin(number)
            case NoteClock():
                for window in plan.windows.values():
                    window.note_clock(self.context.clock)
            case AnnounceOpen():
                self.announce_open(plan, seen)
            case Latch(number, reason):
                self.latch(plan, number, reason)
            case Freeze(number, digest):
                says = {"digest": digest, "round": number}
                self.context.notices.add([("frozen", says)], self.watch.now)
                if seen.fixed is None:  # a word is for the journal of its time
                    plan.drop(number, Reason.CHANGED)
            case Fix(digest):
                self.fix(plan, seen, digest)
            case Close():
                return self.close(plan, seen, action)
            case Publish(number):
                assert seen.server
                self.publisher.publish(plan, number, seen.server.closed, seen.server.ended)
            case AnnounceClosing(number):
                assert seen.server
                self.publisher.announce(plan, number, seen.server.closed, seen.server.ended)
        self.context.plan_file.store(plan)
        return None

    def announce_open(self, plan: Plan, seen: Observed) -> None:
        assert seen.server
        number = seen.server.closed + 1
        window = plan.windows[number]
        self.context.announce(
            opening_key(number, window.opens),
            f"Round {number} is open until {in_words(window.closes)}.",
        )

    def latch(self, plan: Plan, number: int, reason: Reason) -> None:
        """Stores a doubt. If the clock was set, the gate is shut, so everyone must know why."""
        plan.latch(number, reason)
        if reason is Reason.CLOCK:
            drift = self.watch.drift(plan.windows[number])
            plan.announce(
                f"The clock of the auction's machine was set by {drift:+.0f} seconds. Round "
                f"{number} takes no sheets until the operator has looked at it."
            )

    # ---- Closing

    def fix(self, plan: Plan, seen: Observed, digest: str) -> None:
        """Brings the closing to the disk."""
        assert seen.server
        number, context = seen.server.closed + 1, self.context
        if plan.ended and plan.ended.round == number:
            increments = plan.ended.increments
        else:
            results = context.public.results(number - 1)
            increments = increments_for(plan.rules_of(number), context.setup, number + 1, results)
        has_no_ties = Reason.TOO_MANY_PAIRS in seen.plan.released
        ties = Ties.NONE if has_no_ties else Ties.OF_CHAIN
        with disk.locked(context.auction.lock()):
            closing.fix(context.auction, number, increments, ties, digest)

    def close(self, plan: Plan, seen: Observed, action: Close) -> Report | None:
        """Sends the closing, unless it is too early or too late by a fresh look at the clock."""
        assert seen.server
        number, clock = seen.server.closed + 1, self.context.clock
        is_fresh = clock.passed() <= action.seen_at + FRESH
        if not (is_fresh and action.earliest <= clock.wall() <= action.latest):
            return None
        with disk.locked(self.context.auction.lock()):
            answer = closing.send(self.context.auction, number, Origin.BEFORE)
        if answer.outcome is Outcome.REFUSED:
            plan.latch(number, Reason.REFUSED, f"{Reason.REFUSED.value}, {answer.page}")
            self.context.plan_file.store(plan)
            return None
        plan.forget(number)
        self.context.plan_file.store(plan)
        self.publisher.store(number)
        return Report(State.CLOSED, f"Round {number} is closed.", self.watch.now)
