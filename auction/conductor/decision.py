"""What the conductor does next: one pure function of what it observes.

The conductor observes, asks `decide` for one action, carries it out, and observes again. It
remembers nothing that is not observed, so it may be killed between any two actions. Nothing here
reads a clock, a file, or a socket. tests/decisions enumerates what can happen to a small auction.
"""
import dataclasses
import itertools
from collections.abc import Callable, Iterator

from .actions import (
    Action,
    AnnounceClosing,
    AnnounceOpen,
    Close,
    Fix,
    Freeze,
    Latch,
    NoteClock,
    NoteOpened,
    Publish,
    SetGate,
    Wait,
)
from .observed import (
    FOREVER,
    Gate,
    Limits,
    Observed,
    Reason,
    Server,
    State,
    TEN,
    Window,
    whole_ten,
)


@dataclasses.dataclass(frozen=True)
class Look:
    """What is observed, with the times and the gates that follow from it."""

    seen: Observed
    limits: Limits

    @property
    def window(self) -> Window:
        assert self.seen.plan.window
        return self.seen.plan.window

    @property
    def has_window(self) -> bool:
        return self.seen.plan.window is not None

    @property
    def server(self) -> Server:
        assert self.seen.server
        return self.seen.server

    @property
    def number(self) -> int:
        """The current round, as far as it is known."""
        return (self.seen.published if self.seen.server is None else self.seen.server.closed) + 1

    @property
    def shuts(self) -> int:
        """When the inner door shuts."""
        return self.limits.shuts(self.window.closes)

    @property
    def is_drawn(self) -> bool:
        return self.seen.gate.draws <= self.seen.now < self.seen.gate.lifts

    @property
    def doubts(self) -> frozenset[Reason]:
        """The doubts that no word has released."""
        return self.seen.plan.doubts - self.seen.plan.released

    def is_new(self, reason: Reason) -> bool:
        return reason not in self.seen.plan.doubts

    def shut(self) -> Gate:
        """No sheet passes.

        A curtain that has begun stays, also if it is over: the clock may go back.
        """
        gate = self.seen.gate
        return Gate(draws=gate.draws, lifts=gate.lifts) if gate.draws <= self.seen.now else Gate()

    def open(self) -> Gate:
        return self.limits.doors(self.window.opens, self.window.closes)

    def draining(self) -> Gate:
        """Only the inner door is open, if it was opened.

        The curtain is drawn, also if the clock goes back.
        """
        window = self.window
        doors = (window.opens, 0, self.shuts) if self.seen.gate.late else (0, 0, 0)
        return Gate(*doors, *self.limits.curtain(window.opens, window.closes))

    def drawn_again(self) -> Gate:
        """For a closing that comes later than its window's end says."""
        before = int(self.seen.now - self.limits.publish) // TEN * TEN  # the clock may go back
        return Gate(draws=before, lifts=whole_ten(self.seen.now + self.limits.publish))

    def must_draw(self) -> bool:
        """Whether the curtain might lift while the closing is on its way."""
        if not self.limits.publish:
            return False
        return not self.is_drawn or self.seen.gate.lifts < self.seen.now + self.limits.longest

    def freeze(self) -> Freeze:
        return Freeze(self.number, self.server.digest)

    def closing(self) -> Close:
        """Sends the closing while the curtain is drawn, or without a curtain at any time."""
        if not self.limits.publish:
            return Close(0, FOREVER, self.seen.passed)
        gate = self.seen.gate
        return Close(gate.draws, gate.lifts - self.limits.longest, self.seen.passed)


@dataclasses.dataclass(frozen=True)
class Rule:
    """A row of the table: if this holds, and no row before it, then this is done."""

    condition: str
    action: str
    holds: Callable[[Look], bool]
    then: Callable[[Look], Action]


def set_gate(
    condition: str, holds: Callable[[Look], bool], gate: Callable[[Look], Gate], words: str
) -> Rule:
    """A row that changes the gate, if it is another one."""
    return Rule(
        condition,
        words,
        lambda look: holds(look) and look.seen.gate != gate(look),
        lambda look: SetGate(gate(look)),
    )


def shut_and_wait(
    condition: str,
    state: State,
    holds: Callable[[Look], bool],
    until: Callable[[Look], float | None] = lambda look: None,
) -> tuple[Rule, Rule]:
    """Two rows: the gate is shut, then nothing more is done."""
    return (
        set_gate(condition, holds, Look.shut, "shut both doors"),
        Rule(
            condition,
            f"wait for {state.value}" if state is not State.ENDED else "nothing",
            holds,
            lambda look: Wait(state, until(look), look.doubts),
        ),
    )


def latch(reason: Reason, condition: str, holds: Callable[[Look], bool]) -> Rule:
    """A row that stores a doubt, once."""
    return Rule(
        condition,
        f"latch: {reason.value}",
        lambda look: look.is_new(reason) and holds(look),
        lambda look: Latch(look.number, reason),
    )


def is_before(look: Look, end: int) -> bool:
    """Whether it is before this end by the time of day, if that says anything."""
    return look.seen.now < end and Reason.CLOCK not in look.doubts and look.seen.fixed is None


def is_open(look: Look) -> bool:
    return is_before(look, look.window.closes)


def is_draining(look: Look) -> bool:
    return is_before(look, look.shuts)


RULES: tuple[Rule, ...] = (
    *shut_and_wait(
        "the plan is of another set-up or commitment",
        State.STRANGER,
        lambda look: look.seen.plan.auction != look.seen.auction,
    ),
    set_gate(
        "the auction is paused", lambda look: look.seen.plan.paused, Look.shut, "shut both doors"
    ),
    latch(
        Reason.CLOCK,
        "clock and passed time differ by more than `drift` since the window was announced",
        lambda look: look.has_window and abs(look.seen.drift) > look.limits.drift,
    ),
    Rule(
        "the machine was started since the window was announced",
        "note its clock once more",
        lambda look: look.seen.restarted,
        lambda look: NoteClock(),
    ),
    latch(
        Reason.OUTAGE,
        "bidders missed more than the share `missed` of the window",
        lambda look: look.has_window and look.seen.missed > look.limits.missed,
    ),
    set_gate(
        "the clock was set, and no word says that it is right",
        lambda look: Reason.CLOCK in look.doubts,
        Look.shut,
        "shut both doors",
    ),
    Rule(
        "the server does not answer, or its journal cannot be read",
        "wait for the server; the window ends by itself",
        lambda look: look.seen.server is None,
        lambda look: Wait(State.GONE, None, look.doubts),
    ),
    *shut_and_wait(
        "fewer rounds are closed than published",
        State.MISMATCH,
        lambda look: look.server.closed < look.seen.published,
    ),
    latch(
        Reason.LOST,
        "the journal lacks something that was read in it before",
        lambda look: look.has_window and look.seen.lost,
    ),
    Rule(
        "a closed round is not published, and the curtain is drawn",
        "wait for the curtain to lift",
        lambda look: look.server.closed > look.seen.published and look.is_drawn,
        lambda look: Wait(State.CURTAIN, look.seen.gate.lifts, look.doubts),
    ),
    Rule(
        "a closed round is not published",
        "publish it",
        lambda look: look.server.closed > look.seen.published,
        lambda look: Publish(look.seen.published + 1),
    ),
    Rule(
        "a closing is not announced",
        "announce it",
        lambda look: look.seen.announced < look.seen.published,
        lambda look: AnnounceClosing(look.seen.announced + 1),
    ),
    *shut_and_wait("the auction has ended", State.ENDED, lambda look: look.server.ended),
    Rule(
        "the auction is paused",
        f"wait for {State.PAUSED.value}",
        lambda look: look.seen.plan.paused,
        lambda look: Wait(State.PAUSED, None, look.doubts),
    ),
    *shut_and_wait(
        "the round has no window", State.UNPLANNED, lambda look: look.seen.plan.window is None
    ),
    Rule(
        "the window is not open yet, and the clock was set, and no word says that it is right",
        f"wait for {State.HELD.value}",
        lambda look: look.seen.now < look.window.opens and Reason.CLOCK in look.doubts,
        lambda look: Wait(State.HELD, None, look.doubts),
    ),
    *shut_and_wait(
        "the window is not open yet",
        State.BEFORE,
        lambda look: look.seen.now < look.window.opens,
        lambda look: look.window.opens,
    ),
    set_gate(
        "the window is open",
        is_open,
        Look.open,
        "open both doors until its end, and the inner one for `drain` more; "
        "draw the curtain from its end on for `publish`",
    ),
    Rule(
        "the window is open",
        "note in the plan that this conductor opened it",
        lambda look: is_open(look) and not look.window.opened,
        lambda look: NoteOpened(look.number),
    ),
    Rule(
        "the window is open",
        "announce it",
        lambda look: is_open(look) and not look.window.announced,
        lambda look: AnnounceOpen(),
    ),
    Rule(
        "the window is open",
        "wait for its end",
        is_open,
        lambda look: Wait(State.OPEN, look.window.closes, look.doubts),
    ),
    set_gate(
        "the window ended less than `drain` ago", is_draining, Look.draining, "shut the outer door"
    ),
    Rule(
        "the window ended less than `drain` ago",
        "wait for requests that began in time",
        is_draining,
        lambda look: Wait(State.DRAINING, look.shuts, look.doubts),
    ),
    set_gate("the inner door is open", lambda look: True, Look.shut, "shut it"),
    Rule(
        "a connection from before the last change of the gate is still open",
        "wait for it",
        lambda look: look.seen.pending,
        lambda look: Wait(State.PENDING, None, look.doubts),
    ),
    Rule(
        "the inner door shut less than `freeze` ago",
        f"wait for {State.FREEZING.value}",
        lambda look: is_before(look, look.limits.freezes(look.window.closes)),
        lambda look: Wait(State.FREEZING, look.limits.freezes(look.window.closes), look.doubts),
    ),
    Rule(
        "the window's sheets are not frozen",
        "freeze them: publish and sign the journal's digest",
        lambda look: look.seen.frozen is None,
        Look.freeze,
    ),
    latch(
        Reason.NOT_OPENED,
        "this conductor did not open the window",
        lambda look: not look.window.opened,
    ),
    latch(Reason.NO_SHEETS, "nobody has a sheet in force", lambda look: look.server.sheets == 0),
    latch(
        Reason.TOO_MANY_PAIRS,
        "too many pairs matter",
        lambda look: look.server.pairs > look.limits.pairs,
    ),
    latch(
        Reason.CHANGED,
        "the journal is not the frozen one, or not the one that the closing was made for",
        lambda look: look.server.digest != look.seen.frozen
        or look.seen.fixed not in (None, look.server.digest),
    ),
    Rule(
        "a doubt is not released",
        "wait for the word to close, or for more time",
        lambda look: bool(look.doubts),
        lambda look: Wait(State.HELD, None, look.doubts),
    ),
    Rule(
        "a person's word is that the journal may have changed",
        "freeze it as it is",
        lambda look: look.server.digest != look.seen.frozen,
        Look.freeze,
    ),
    Rule(
        "the curtain lifts before the longest closing would end",
        "draw it for `publish` from now on",
        Look.must_draw,
        lambda look: SetGate(look.drawn_again()),
    ),
    Rule(
        "no closing is on the disk",
        "make it, for exactly this journal",
        lambda look: look.seen.fixed is None,
        lambda look: Fix(look.server.digest),
    ),
    Rule(
        "otherwise",
        "send the closing",
        lambda look: True,
        Look.closing,
    ),
)


def decide(seen: Observed, limits: Limits, rules: tuple[Rule, ...] = RULES) -> Action:
    """The one action that is due: that of the first row that holds."""
    look = Look(seen, limits)
    return next(rule.then(look) for rule in rules if rule.holds(look))


def table() -> Iterator[str]:
    """The rules in words. A line has the rules of one condition."""
    yield "The conductor does what the first line says whose condition holds, and looks again."
    yield "To latch is to store a doubt."
    groups = itertools.groupby(RULES, key=lambda rule: rule.condition)
    for number, (condition, rules) in enumerate(groups, 1):
        actions = ". Then ".join(rule.action for rule in rules)
        yield f"{number}. {condition}: {actions}"
