"""What the conductor sees before each decision. Nothing here changes the auction."""
from auction.formats.journal import JournalChanged, JournalFault
from auction.formats.ties import MOST_TIES

from . import closing, observed
from .closing import last_closed
from .context import Context
from .observed import Observed, Reason, Server
from .pending import pending
from .plan import Plan
from .public import closing_key, opening_key
from .server import NoReply, Refused
from .timetable import Window
from .watch import Watch


class Observer:
    """Sees the clock, plan, gate, server, journal, connections, and files of an auction.

    `fault` says why the server was not seen at the last look. `round` is the last one it named.
    """

    def __init__(self, context: Context, watch: Watch) -> None:
        self.context, self.watch = context, watch
        self.fault, self.pending = "", pending
        self.round: int | None = None
        self.names: set[str] | None = None  # of the gate's files when connections were marked
        self.marked: frozenset[str] = frozenset()
        self.compared = 0  # published rounds that the journal has
        self.counted = ("", 0)  # the journal's digest, and the pairs that matter to it

    def observe(self, plan: Plan) -> Observed:
        """All that a decision depends on."""
        look = self.watch.look()
        server, is_pending = self.server(plan, look.wall)
        published = self.context.public.published()
        number = (published if server is None else server.closed) + 1
        ended = self.context.public.has_ended() if server is None else server.ended
        window = None if ended else plan.windows.get(number)
        gate = self.context.gate.times(window.opens if window else 0, look.wall)
        fixed = None if ended else closing.fixed_for(self.context.auction, number)
        is_shut = is_over(window, look.wall) and not gate.takes and not gate.late
        is_pending = is_shut and (is_pending or self.names is None)  # None: nobody has asked
        if server and is_shut and not is_pending and fixed is None:
            server = server._replace(pairs=self.pairs(number))
        return Observed(
            self.context.plan_file.auction,
            look.wall,
            look.passed,
            self.watch.drift(window) if window else 0.0,
            window is not None and window.boot != look.boot,
            self.missed(number, window, plan, server),
            plan_of(plan, number, window, self.is_announced(number, window)),
            gate,
            server,
            server is not None and not ended and self.lost(plan, number),
            is_pending,
            self.context.notices.frozen(number),
            fixed,
            published,
            self.announced(),
        )

    def server(self, plan: Plan, now: float) -> tuple[Server | None, bool]:
        """The server and its journal, or None if one of them cannot be read; and whether a request
        is on its way to it.

        The journal is read last: so it has each request that was not on its way any more.
        """
        journal, is_pending = self.context.journal, False
        try:
            status = self.context.status()
            self.round, closed, ended = status["round"], last_closed(status), status["ended"]
            if closed < self.context.public.published():
                return Server(closed, ended, "", 0, 0), False
            window = None if ended else plan.windows.get(closed + 1)
            gate = self.context.gate.times(0)
            is_pending = self.is_pending(is_over(window, now) and not gate.takes and not gate.late)
            self.read_on()
        except (NoReply, Refused, JournalFault) as fault:
            self.fault = str(fault)
            return None, is_pending
        if len(journal.closings) != closed:
            self.fault = (
                f"{journal.path} is in round {journal.round}, and the server in round "
                f"{self.round}. Is it the server's own, and no copy?"
            )
            return None, is_pending
        if not self.is_of_published():
            self.fault = (
                f"{journal.path} has other closings than were published. Is it the server's own, "
                "and no copy?"
            )
            return None, is_pending
        return Server(closed, ended, journal.digest.hex(), len(journal.sheets), 0), is_pending

    def is_of_published(self) -> bool:
        """Whether the journal has the published rounds, by the digest of the last one."""
        public, closings = self.context.public, self.context.journal.closings
        last = public.published()
        if last > self.compared:
            page = public.results(last) or {}
            if page.get("digest") != closings[last - 1].digest:
                return False
            self.compared = last
        return True

    def read_on(self) -> None:
        """Reads the journal on, or from its beginning if it was put back, or is another one."""
        try:
            self.context.journal.read_on()
        except JournalChanged:
            self.compared = 0
            self.context.journal.begin()
            self.context.journal.read_on()

    def lost(self, plan: Plan, number: int) -> bool:
        """Whether the journal lacks what was read in it before. It counts once."""
        reasons = {doubt.reason for doubt in plan.doubts_of(number)}
        return self.watch.lost(self.context.journal, Reason.LOST.name in reasons)

    def pairs(self, number: int) -> int:
        """How many pairs of bidder and product matter to the closing of this journal."""
        setup, digest = self.context.setup, self.context.journal.digest.hex()
        if number == 1 or len(setup.bidders) * len(setup.products) <= MOST_TIES:
            return 0
        if self.counted[0] != digest:
            self.counted = digest, len(closing.pairs_of(self.context.auction, number))
        return self.counted[1]

    def missed(
        self, number: int, window: Window | None, plan: Plan, server: Server | None
    ) -> float:
        """The share of the window so far in which bidders could not reach the auction."""
        if window is None or number != self.context.public.published() + 1:
            return 0.0
        is_reached = server is not None
        if window.opened is not None:  # before that, the doors open without waiting for a page
            is_reached = is_reached and self.context.is_reached(self.watch.now, window)
        if window.opened is not None and self.watch.now < window.closes:
            is_reached = is_reached and self.context.gate.takes_sheets(self.watch.now)
        return self.watch.missed(number, window, plan.paused is not None, is_reached)

    def is_pending(self, is_shut: bool) -> bool:
        """Whether a connection from before the last change of the gate is still open.

        Before both doors are shut after a window, nobody asks: the kernel needs some time to list
        thousands of connections that have ended.
        """
        if not is_shut:
            self.names = None
            return False
        names = self.context.gate.names()
        if names != self.names:
            self.names, self.marked = names, self.pending(self.context.settings.port)
        elif self.marked:
            self.marked &= self.pending(self.context.settings.port)
        return bool(self.marked)

    def is_announced(self, number: int, window: Window | None) -> bool:
        keys = {one["key"] for one in self.context.public.announcements()}
        return window is not None and opening_key(number, window.opens) in keys

    def announced(self) -> int:
        """How many closed rounds are announced, from round 1 on."""
        keys, number = {one["key"] for one in self.context.public.announcements()}, 0
        while closing_key(number + 1) in keys:
            number += 1
        return number


def is_over(window: Window | None, now: float) -> bool:
    return window is not None and now >= window.closes


def plan_of(plan: Plan, number: int, window: Window | None, announced: bool) -> observed.Plan:
    """What the plan says of a round."""
    doubts = plan.doubts_of(number)
    seen = None
    if window:
        is_opened = window.opened is not None
        seen = observed.Window(window.opens, window.closes, is_opened, announced)
    return observed.Plan(
        plan.auction,
        seen,
        plan.paused is not None,
        frozenset(Reason[doubt.reason] for doubt in doubts),
        frozenset(Reason[doubt.reason] for doubt in doubts if doubt.is_released),
    )
