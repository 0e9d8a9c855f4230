"""A small model of an auction around `decide`: all that is, as one value.

An auction of two rounds: gate, nginx, server, journal, bidders, operator, and clock. Time goes in
steps of ten seconds. Each event (events.py) is one atomic change, and any may come next. So a
bidder's request, a command, or an outage may come between what the conductor observed and what it
does.
"""
from typing import NamedTuple

from auction.conductor.actions import Action
from auction.conductor.observed import Gate, Limits, Reason, Window

LIMITS = Limits(drain=10, publish=30, longest=10, freeze=0, drift=1, missed=0.02, pairs=2)
WINDOWS = (Window(20, 40), Window(80, 90))
GAP = 40  # from a window's end to the next opening: `publish`, and ten seconds to read the results
END = 140
HEAD, QUEUED = 1, 2  # where a request is: with its bidder, or in the server's queue


class Closing(NamedTuple):
    """A closing on its way: its round, the journal that it was made for, and its curtain's end."""

    number: int
    digest: str
    lifts: int


class Budget(NamedTuple):
    """How many of each may still happen."""

    clock: int = 1  # steps of the clock
    outages: int = 1
    words: int = 1  # commands of the operator
    spies: int = 1  # pages that someone asks for
    slow: int = 2  # times that ten seconds pass before the conductor does what is due
    cuts: int = 0  # commands that are killed between two steps
    hands: int = 0  # calls of `auction close`
    reboots: int = 0
    seconds: int = 0  # second conductors that begin
    restores: int = 0  # times that an earlier state of the journal is put back
    strangers: int = 0  # sheets at the server's own port, past both doors


class Request(NamedTuple):
    """A sheet on its way, by the round in its body."""

    bidder: str
    number: int
    where: int
    passed: int = 0  # the current round when it passed the inner door


class Hand(NamedTuple):
    """A closing by hand, which has the plan's lock: when its window ended, and what it releases."""

    ends: int
    doubts: frozenset[Reason]
    released: frozenset[Reason]


class World(NamedTuple):
    """All that is. What begins with `true_` nobody in it knows: the checks compare with it."""

    passed: int = 10
    names: str = "X"  # the bidders
    step: int = 0  # the clock of day less the time that passed
    nginx: bool = True
    running: bool = True
    gate: Gate = Gate()
    windows: tuple[Window | None, ...] = WINDOWS
    is_strange: bool = False  # a sheet of this round came past the doors, or was lost
    lost: bool = False  # the conductor has read sheets that the journal no longer has
    is_own: bool = True  # whether the plan is of this auction
    set_at: int = 0  # `step` when the window was announced
    paused: bool = False
    since: int = 0  # when the auction was paused
    is_cut: bool = False  # the command was killed before it shut the doors, and no time has passed
    doubts: frozenset[Reason] = frozenset()
    released: frozenset[Reason] = frozenset()
    missed: bool = False
    closed: tuple[frozenset[str], ...] = ()  # the sheets of each closed round
    sheets: frozenset[str] = frozenset()
    requests: tuple[Request, ...] = ()
    closings: tuple[Closing, ...] = ()  # in the server's queue
    spy: int = 0  # 1: a page is on its way to the server
    marked: frozenset[tuple[str, int]] = frozenset()
    other: frozenset[tuple[str, int]] | None = None  # those that a second conductor waits for
    hand: Hand | None = None
    rebooted: bool = False  # since the window was announced
    frozen: str | None = None
    fixed: str | None = None
    published: int = 0
    announced: int = 0
    acting: Action | None = None  # what the conductor has decided and not yet done
    waits: bool = False  # the conductor waits for the reply to a closing
    budget: Budget = Budget()
    true_open: bool = False  # whether both doors were open in the window
    true_empty: bool = False  # nobody had a sheet when the inner door had shut
    true_lost: bool = False  # sheets of this round were lost
    true_word: frozenset[Reason] = frozenset()  # what a person has seen and released
    true_frozen: str | None = None  # the digest at which this window was frozen first
    promise: int = 0  # until when the last closing may not be seen

    @property
    def now(self) -> int:
        return self.passed + self.step

    @property
    def number(self) -> int:
        return len(self.closed) + 1

    @property
    def ended(self) -> bool:
        return len(self.closed) == 2

    @property
    def window(self) -> Window | None:
        return None if self.ended else self.windows[self.number - 1]

    @property
    def digest(self) -> str:
        return f"{len(self.closed)} {' '.join(sorted(self.sheets))}"

    @property
    def is_drawn(self) -> bool:
        return self.gate.draws <= self.now < self.gate.lifts

    def pending(self) -> frozenset[tuple[str, int]]:
        found = {(one.bidder, one.number) for one in self.requests if one.where == QUEUED}
        return frozenset(found | ({("spy", self.spy)} if self.spy else set()))


class Broken(Exception):
    """An invariant does not hold."""


def check(holds: bool, words: str) -> None:
    if not holds:
        raise Broken(words)


def with_window(world: World, **changes: object) -> World:
    window = world.window
    assert window
    windows = list(world.windows)
    windows[world.number - 1] = window._replace(**changes)  # type: ignore[arg-type]
    return world._replace(windows=tuple(windows))


def with_marks(world: World) -> World:
    """Who waits for connections finds those of now."""
    found = world.pending()
    return world._replace(marked=found, other=None if world.other is None else found)


def takes(world: World) -> bool:
    """Whether the outer door takes a head now."""
    return world.gate.opens <= world.now < world.gate.takes


def takes_whole(world: World) -> bool:
    """Whether the inner door lets a whole sheet pass now."""
    return world.gate.opens <= world.now < world.gate.late
