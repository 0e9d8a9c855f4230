"""Closed rounds become public: each is stored, published, and announced, once."""
from . import closing, disk
from .clock import in_words
from .context import Context
from .plan import Plan
from .public import closing_key
from .timetable import move_later, put_off


class Publisher:
    """Publishes and announces the closed rounds of an auction."""

    def __init__(self, context: Context) -> None:
        self.context = context

    def publish(self, plan: Plan, number: int, closed: int, ended: bool) -> None:
        """Publishes a closed round, once it is stored."""
        context = self.context
        self.store(closed)
        now = context.clock.wall()
        if number == closed and not ended:
            self.leave_time(plan, closed + 1, now)
        context.public.publish_round(number, closing.stored_results(context.auction, number), now)

    def store(self, closed: int) -> None:
        """Stores what the server forgets of closed rounds, unless it is stored.

        This also asks for the new pages once, while the curtain is drawn. So nobody sees later, by
        the time that nginx takes for them, whether somebody else was first.
        """
        auction = self.context.auction
        closing.check_folder(auction, closed)
        if not auction.results_file(closed).exists():
            with disk.locked(auction.lock()):
                closing.keep(auction)

    def leave_time(self, plan: Plan, number: int, now: float) -> None:
        """The next round opens no sooner after these results than the settings say.

        This is also so after a late closing.
        """
        window, between = plan.windows.get(number), self.context.settings.between
        if window and window.opened is None and window.opens < now + between:
            put_off(window, now + between)
            move_later(plan.windows, number, self.context.settings.gap)
            plan.announce(
                f"Round {number} opens later than announced, at {in_words(window.opens)}, "
                f"because round {number - 1} was closed late."
            )
            self.context.plan_file.store(plan)

    def announce(self, plan: Plan, number: int, closed: int, ended: bool) -> None:
        """Says that a round is closed, with its digest, and of the last one what follows."""
        window = plan.windows.get(number + 1)
        if number < closed:
            then = ""
        elif ended:
            then = " No product has excess demand: the auction has ended."
        elif window:
            then = f" Round {number + 1} opens at {in_words(window.opens)}."
        else:
            then = f" When round {number + 1} opens will be announced."
        digest = self.context.journal.closings[number - 1].digest
        self.context.announce(
            closing_key(number), f"Round {number} is closed.{then} Its digest is {digest}."
        )
