"""A closing by a person, who says when: by the same doors and decisions as the conductor's.

The folder of closings is in nginx's folder, whose gate is shut, and stays so. A server without
nginx has no gate, and so no doors.
"""
import contextlib
import dataclasses
from collections.abc import Callable, Iterator

from auction.formats.ties import MOST_TIES
from auction.standby import mark

from . import closing, disk, stored
from .actions import Close, Fix, Freeze, Latch, SetGate, Wait
from .clock import Clock, in_words, seconds_of
from .closing import Answer, Auction, Increments, NotClosed, Origin, Ties
from .context import user
from .decision import decide
from .gate import Gate
from .notices import Notices
from .observed import FOREVER, TEN, Limits, Observed, Plan, Reason, Server, State, Window
from .pending import pending
from .report import OPTIONS
from .settings import Folders, Settings

NO_DOORS = Limits(drain=0, publish=0, longest=0, freeze=0, pairs=MOST_TIES)
LONG = 5  # seconds after which a person is told what is waited for


def by_hand(seen: Observed, ends: int, released: frozenset[Reason]) -> Observed:
    """What a person's word makes of what is observed: the window has ended, whoever opened it.

    The word stands for what only a conductor measures, and for its publishing.
    """
    plan = Plan(seen.auction, Window(ends, ends, True, True), False, seen.plan.doubts, released)
    closed = seen.server.closed if seen.server else 0
    return dataclasses.replace(
        seen, plan=plan, drift=0.0, restarted=False, missed=0.0, published=closed, announced=closed
    )


@dataclasses.dataclass(frozen=True)
class Word:
    """What a person gives to a closing: its increments, its ties, and the doubts that it releases.

    `is_early` closes a round before its announced end.
    """

    increments: Increments
    ties: Ties
    released: frozenset[Reason]
    is_early: bool = False


class Hand:
    """Closes rounds for a person."""

    def __init__(self, auction: Auction, clock: Clock, say: Callable[[str], None]) -> None:
        self.auction, self.clock, self.say = auction, clock, say
        top = auction.folder.absolute().parent
        self.folders, self.gate = Folders(top), Gate(top / "gate")
        self.notices = Notices(self.folders)
        self.has_doors = self.gate.folder.is_dir()
        has_settings = self.has_doors and (top / "conductor.json").exists()
        self.settings = Settings.read(top) if has_settings else None
        self.limits = self.settings.limits() if self.settings else NO_DOORS
        self.marked: frozenset[str] | None = None  # connections from before the doors were shut
        self.doubts: frozenset[Reason] = frozenset()
        self.has_made = False  # whether this call made the closing

    @contextlib.contextmanager
    def alone(self) -> Iterator[None]:
        """While this lasts, a conductor of this folder and other calls do nothing.

        A Marked if this machine was fenced meanwhile.
        """
        with contextlib.ExitStack() as stack:
            if self.folders.state.is_dir():
                stack.enter_context(disk.locked(self.folders.state / "plan.lock"))
            stack.enter_context(disk.locked(self.auction.lock()))
            mark.check(self.folders.top)
            yield

    def end_of(self, number: int) -> int | None:
        """When the window of a round ends by the published timetable."""
        path = self.folders.public / "timetable.json"
        windows = stored.read(path, windows=list)["windows"] if path.exists() else []
        stored.check_all(path, "window", windows, round=int, closes=str)
        ends = {one["round"]: one["closes"] for one in windows}
        return seconds_of(ends[number]) if number in ends else None

    def check_time(self, number: int, word: Word) -> None:
        """Refuses a round whose window has not ended by the published timetable."""
        end = self.end_of(number)
        if end is not None and self.clock.wall() < end and not word.is_early:
            raise NotClosed(
                f"round {number} is announced to be open until {in_words(end)}. To close it before "
                "that all the same, add --early."
            )

    # ---- One closing

    def close(self, number: int, word: Word) -> Answer:
        """Shuts the doors, waits for what is on its way, and closes the round."""
        now = int(self.clock.wall()) // TEN * TEN
        ends, since = min(self.end_of(number) or now, now), self.clock.passed()
        while True:
            seen = by_hand(self.observe(number, ends), ends, word.released)
            match decide(seen, self.limits):
                case SetGate(gate):
                    self.gate.write(gate, seen.now)
                case Latch(_, reason):
                    self.doubts |= {reason}
                case Freeze(_, digest):
                    self.notices.add([("frozen", {"digest": digest, "round": number})], seen.now)
                case Fix(digest):
                    self.has_made = True
                    closing.fix(self.auction, number, word.increments, word.ties, digest)
                case Close(earliest, latest, _) if earliest <= self.clock.wall() <= latest:
                    origin = Origin.NOW if self.has_made else Origin.BEFORE
                    return closing.send(self.auction, number, origin)
                case Wait(State.HELD):
                    raise NotClosed(self.held(number, word))
                case Wait(state, until):
                    if self.clock.passed() > since + LONG and state is State.PENDING:
                        self.say(f"round {number} is shut, and waits for {state.value}")
                        since = FOREVER
                    self.wait(until)

    def wait(self, until: float | None) -> None:
        rest = 0.1 if until is None else until - self.clock.wall()
        self.clock.sleep(min(1.0, max(0.01, rest)))

    def wait_for_curtain(self) -> None:
        """Waits until bidders see the new state, so that nothing is published before."""
        while self.clock.wall() < (lifts := self.gate.times(0).lifts):
            self.wait(lifts)

    def held(self, number: int, word: Word) -> str:
        """Why a person must say more."""
        standing = sorted(self.doubts - word.released, key=lambda reason: reason.name)
        words = ", and ".join(reason.value for reason in standing)
        options = " ".join(OPTIONS.get(reason, "--changed") for reason in standing)
        return f"round {number}: {words}. To close it all the same, add {options}."

    def note(self, number: int) -> None:
        """Adds to the notices, if a conductor keeps them, that a person closes the round."""
        if self.notices.path.exists():
            says = {"round": number, "what": "close", "who": user()}
            self.notices.add([("act", says)], self.clock.wall())

    # ---- What is seen

    def observe(self, number: int, ends: int) -> Observed:
        """What a decision depends on."""
        now, status = self.clock.wall(), self.auction.operator.page("/v1/status")
        gate = self.gate.times(ends, now)
        is_pending = self.is_pending(not gate.takes and not gate.late)
        sheets = sheets_in_force(self.auction, number)  # has what is not on its way any more
        digest, closed = self.auction.journal.digest.hex(), closing.last_closed(status)
        has_notices = self.notices.path.exists()
        return Observed(
            "",
            now,
            self.clock.passed(),
            0.0,
            False,
            0.0,
            Plan("", None, doubts=self.doubts),
            gate,
            Server(closed, status["ended"], digest, len(sheets), 0),
            False,
            is_pending,
            self.notices.frozen(number) if has_notices else digest,
            closing.fixed_for(self.auction, number),
            closed,
            closed,
        )

    def is_pending(self, is_shut: bool) -> bool:
        """Whether a connection from before the doors were shut is still open."""
        if not self.has_doors or not is_shut:
            return False
        found = pending(self.settings.port if self.settings else Settings.port)
        self.marked = found if self.marked is None else self.marked & found
        return bool(self.marked)


def sheets_in_force(auction: Auction, number: int) -> list[str]:
    """The bidders with a sheet in force, by the journal, which must have come to this round."""
    auction.journal.read_on()
    if auction.journal.round > number:
        raise NotClosed(f"somebody else has closed round {number}. Call it again.")
    if auction.journal.round < number:
        raise NotClosed(
            f"the server is in round {number}, and {auction.journal.path} ends in round "
            f"{auction.journal.round}. Is it the server's own, and no copy?"
        )
    return auction.journal.in_force()
