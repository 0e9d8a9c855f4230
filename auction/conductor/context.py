"""What the conductor and the operator's commands share: settings, folders, clock, plan, and the
public files.
"""
import contextlib
import getpass
import hashlib
import os
from collections.abc import Callable, Iterator
from pathlib import Path

from auction.formats.journal import Journal
from auction.formats.setup import Setup
from auction.mock import Kind
from auction.standby import mark

from . import disk
from .clock import Clock, MachineClock
from .closing import Auction
from .commitment import check_kind
from .gate import Gate
from .notices import Notices, due, facts_of
from .plan import Act, Plan, PlanFile
from .public import PublicFiles
from .server import BiddersPort, NoReply, Operator, Page
from .settings import HALF_PUT_AWAY, Folders, Settings, SettingsFault, is_half_put_away
from .timetable import Window

STATUS_SECONDS = 10


def user() -> str:
    """Who runs this, as far as the system says."""
    return os.environ.get("SUDO_USER") or getpass.getuser()


class Context:
    """An auction's folder with its settings."""

    def __init__(
        self,
        folder: Path,
        clock: Clock | None = None,
        say: Callable[[str], None] = print,
        who: str = "",
    ) -> None:
        if is_half_put_away(folder):
            raise SettingsFault(HALF_PUT_AWAY)
        self.folders, self.settings = Folders(folder), Settings.read(folder)
        self.clock, self.say, self.who = clock or MachineClock(), say, who or user()
        self.notices = Notices(self.folders)
        self.folders.make(self.settings.readers)
        self.setup = Setup.read(self.settings.setup)
        check_kind(self.folders.public / "commitment.json", self.setup)
        self.journal = Journal(self.settings.journal, self.setup)
        self.operator = Operator(
            self.settings.url, self.settings.token.read_text(encoding="utf-8").strip()
        )
        self.bidders_port = BiddersPort(self.settings.bidders, self.settings.authority)
        self.auction = Auction(self.operator, self.setup, self.journal, self.folders.kept)
        self.auction.chain()  # there must be one
        self.plan_file, self.public, self.gate = (
            PlanFile(self.folders.state / "plan.json", self.identity()),
            PublicFiles(self.folders, self.setup.kind is Kind.MOCK),
            Gate(self.folders.gate),
        )

    def identity(self) -> str:
        """The digest of what no two auctions share: the set-up and the commitment.

        A rehearsal has the set-up only.
        """
        commitment = (self.folders.public / "commitment.json").read_bytes()
        return hashlib.sha256(self.setup.document + commitment).hexdigest()

    @contextlib.contextmanager
    def changing(self) -> Iterator[Plan]:
        """The plan, while no other process changes it.

        At the end it is stored, and what goes with the change is announced.

        An exception leaves the plan as it was stored last.
        """
        with disk.locked(self.folders.state / "plan.lock"):
            mark.check(self.folders.top)
            plan = self.plan_file.read()
            self.announce_changes(plan)  # of a process that was killed between
            yield plan
            self.plan_file.store(plan)
            self.announce_changes(plan)

    def announce_changes(self, plan: Plan) -> None:
        """Announces what the stored plan says is to be announced, each once, and shows its
        timetable. Also publishes the winners, if it says so, and adds what is due to the notices.
        """
        for notice in plan.notices:
            self.announce(notice.key, notice.text)
        if plan.winners:
            self.public.publish_winners(self.auction.results_file(self.public.published()))
            self.announce("winners", "What each bidder has won is published with the results.")
        plan.notices = []
        self.plan_file.store(plan)
        self.public.show_timetable(plan)
        self.add_notices(plan)

    def add_notices(self, plan: Plan) -> None:
        """Adds what is due to the notices, in one write."""
        made = self.notices.entries()
        if missing := due(facts_of(plan, self.public, self.folders, made), made):
            self.notices.add(missing, self.clock.wall())
        if plan.acts:
            plan.acts = []
            self.plan_file.store(plan)

    def note(self, plan: Plan, what: str, number: int | None = None) -> None:
        """Notes in the plan what a person does."""
        plan.acts.append(Act(what, self.who, number, len(self.notices.entries())))

    def announce(self, key: str, text: str) -> None:
        if made := self.public.announce(key, text, self.clock.wall()):
            self.say(made)

    def is_reached(self, now: float, window: Window) -> bool:
        """Whether bidders reach the auction, as far as the settings let it be asked."""
        is_open = window.opens <= now <= window.closes
        return not (is_open and self.settings.bidders) or self.bidders_port.answers()

    def status(self) -> Page:
        """The server's status."""
        page = self.operator.page("/v1/status", STATUS_SECONDS)
        if type(page.get("round")) is not int or type(page.get("ended")) is not bool:
            raise NoReply(f"this is not a status: {page}")
        return page
