"""What the desk shows of an auction, and the stamp of it that an act is bound to."""
import dataclasses
import hashlib
import json
from typing import Any

from auction.conductor import report
from auction.conductor.clock import utc
from auction.conductor.context import Context
from auction.conductor.plan import Plan
from auction.conductor.server import NoReply, Refused
from auction.formats.strict import value_in

from .activity import Activity
from .powers import POWERS, Facts, people_for, why_not

MINUTES = 10.0  # after which `resume` continues if nobody says otherwise


@dataclasses.dataclass(frozen=True)
class Standing:
    """A bidder that can still bid: has it a sheet in force, since when, and when it was seen last.

    None if that is not known. No bid is in it.
    """

    name: str
    eligibility: int
    submitted: bool | None
    since: str | None
    seen: str | None


@dataclasses.dataclass(frozen=True)
class View:
    """The auction as the desk sees it at one moment."""

    round: int
    facts: Facts
    stamp: str
    report: dict[str, Any] | None
    is_stale: bool
    plan: Plan
    bidders: list[Standing]


def stamp_of(auction: str, number: int, facts: Facts, plan: Plan, acts: int) -> str:
    """A digest of what a person decides by.

    Not in it is what the conductor notes by itself, such as that it has opened a window.
    """
    windows = [[each, window.opens, window.closes] for each, window in plan.windows.items()]
    doubts = [[doubt.round, doubt.reason, doubt.is_released] for doubt in plan.doubts]
    paused = plan.paused and [plan.paused.since, plan.paused.words]
    rules = [dataclasses.asdict(rule) for rule in plan.increments]
    ended = plan.ended and dataclasses.asdict(plan.ended)
    whole = [
        auction,
        number,
        dataclasses.asdict(facts),
        windows,
        doubts,
        paused,
        rules,
        ended,
        acts,
    ]
    return hashlib.sha256(json.dumps(whole).encode()).hexdigest()


class Viewer:
    """Looks at an auction. Nothing here changes it."""

    def __init__(self, context: Context, activity: Activity) -> None:
        self.context, self.activity = context, activity
        self.known: tuple[int, list[int]] | None = None  # eligibilities after a closed round

    def look(self, plan: Plan, acts: int) -> View:
        """The auction now. `acts` is how many were done at desks."""
        context = self.context
        shown = report.shown(context.folders)
        age = context.clock.wall() - report.time_of(shown) if shown else 0.0
        is_stale = shown is None or abs(age) > report.STALE
        last, ended = context.public.published(), context.public.has_ended()
        number = last if ended else last + 1
        facts = Facts(
            is_paused=plan.paused is not None,
            is_held=bool(shown) and not is_stale and is_held(shown, number),
            has_ended=ended,
            has_winners=(context.folders.public / "winners.json").exists(),
        )
        stamp = stamp_of(context.plan_file.auction, number, facts, plan, acts)
        sheets = None if is_stale or ended else sheets_in(shown, number)
        return View(number, facts, stamp, shown, is_stale, plan, self.standings(last, sheets))

    def standings(self, last: int, sheets: set[str] | None) -> list[Standing]:
        """The bidders with eligibility after this closed round."""
        return [
            Standing(
                name,
                eligibility,
                None if sheets is None else name in sheets,
                self.activity.sent.get(name) if sheets and name in sheets else None,
                self.activity.seen.get(name),
            )
            for name, eligibility in zip(self.context.setup.bidders, self.eligibilities(last))
            if eligibility > 0
        ]

    def eligibilities(self, last: int) -> list[int]:
        """Each bidder's eligibility after a closed round; of the set-up before the first one."""
        if self.known is None or self.known[0] != last:
            self.known = (last, self.read_eligibilities(last))
        return self.known[1]

    def read_eligibilities(self, last: int) -> list[int]:
        if last == 0:
            bidders = value_in(self.context.setup.document)["bidders"]
        else:
            file = self.context.auction.results_file(last)
            if not file.exists():
                return self.asked_eligibilities()
            bidders = json.loads(file.read_text(encoding="utf-8"))["bidders"]
        return [bidder["eligibility"] for bidder in bidders]

    def asked_eligibilities(self) -> list[int]:
        """Eligibilities by the server, for rounds that somebody else has published."""
        try:
            page = self.context.operator.page("/v1/results", 10)
        except (NoReply, Refused):
            return []
        return [bidder["eligibility"] for bidder in page["bidders"]]


def is_held(shown: dict[str, Any] | None, number: int) -> bool:
    """Whether the conductor waits for a word about this round."""
    return bool(shown and shown["state"] == report.State.HELD.value and shown["round"] == number)


def sheets_in(shown: dict[str, Any] | None, number: int) -> set[str] | None:
    """The bidders with a sheet in force, if the report is about this round."""
    if not shown or shown["sheets"] is None or shown["round"] != number:
        return None
    return set(shown["sheets"])


def acts_page(facts: Facts) -> dict[str, dict[str, Any]]:
    """For each act, why it is not possible now, and how many people it needs."""
    page = {}
    for act in POWERS:
        why = why_not(act, facts)
        page[act] = {"people": people_for(act, MINUTES), "why": why.value if why else None}
    return page


def page_of(view: View, who: str, now: float) -> dict[str, Any]:
    """What the page of the desk is shown."""
    shown = view.report or {}
    windows = [
        {"round": number, "opens": utc(window.opens), "closes": utc(window.closes)}
        for number, window in view.plan.windows.items()
        if number >= view.round
    ]
    return {
        "who": who,
        "round": view.round,
        "ended": view.facts.has_ended,
        "state": shown.get("state"),
        "waits_for": shown.get("waits_for"),
        "until": shown.get("until"),
        "looked": shown.get("time"),
        "is_stale": view.is_stale,
        "time": utc(now),
        "stamp": view.stamp,
        "paused": view.plan.paused and view.plan.paused.words,
        "windows": windows,
        "bidders": [dataclasses.asdict(one) for one in view.bidders],
        "acts": acts_page(view.facts),
    }
