"""The desk of one auction: what it shows to people, and what it does by their word."""
import re
import threading
from collections.abc import Callable
from pathlib import Path
from typing import Any

from auction.conductor.clock import Clock, utc
from auction.conductor.commands import CommandFault
from auction.conductor.plan import Plan, StrangePlan
from auction.conductor.server import NoReply, Refused
from auction.conductor.timetable import TimetableFault
from auction.formats.journal import JournalFault
from auction.formats.strict import value_in

from .activity import Activity
from .acts import BadRequest, Given, Guarded, Stale, carry_out, windows_in, words_of
from .log import SHOWN, Act, Log
from .people import People
from .powers import (
    PATIENCE,
    POWERS,
    Ask,
    Binds,
    Do,
    Refusal,
    Refuse,
    Situation,
    Wanted,
    Withdraw,
    is_late,
    judge,
)
from .view import View, Viewer, page_of

KEY = re.compile(r"[0-9a-f]{32}")
FAULTS = (CommandFault, TimetableFault, BadRequest, JournalFault, NoReply, Refused, OSError)
ASKED = {"act", "key", "round", "stamp", "typed", "of", "given"}
DONE, BEGUN, WAITS, WITHDRAWN = "done", "begun", "waits", "withdrawn"

Reply = tuple[int, dict[str, Any]]


def refused(why: Refusal | str, words: str = "", status: int = 409) -> Reply:
    code = why.value if isinstance(why, Refusal) else why
    return status, {"code": code, "status": status, **({"words": words} if words else {})}


class Desk:
    """Acts and looks come from many pages at once. One act follows the other."""

    def __init__(
        self,
        folder: Path,
        clock: Clock | None = None,
        say: Callable[[str], None] = print,
    ) -> None:
        self.context = Guarded(folder, clock, say)
        self.clock = self.context.clock
        self.activity = Activity(folder / "log" / "access.log")
        token = self.context.settings.token.read_text(encoding="utf-8").strip()
        self.people = People.read(token, folder / "desk.map")
        self.log = Log(self.context.folders.state)
        self.viewer = Viewer(self.context, self.activity)
        self.looker = Viewer(Guarded(folder, clock, say), self.activity)
        self.acting, self.looking = threading.Lock(), threading.Lock()

    # ---- What it shows

    def page(self, who: str) -> Reply:
        """The auction as it is now, the acts that were done, and what waits for a second person."""
        with self.looking:
            acts = self.log.lines()
            try:
                plan = self.looker.context.plan_file.read()
            except StrangePlan as fault:
                return refused("strange_plan", str(fault))
            now = self.clock.wall()
            self.activity.read_on()
            view = self.looker.look(plan, done_in(acts))
            page = page_of(view, who, now)
        shown = [act for act in acts if act.outcome != BEGUN][-SHOWN:]
        listed = [
            {"time": act.time, "who": act.who, "words": act.words, "outcome": act.outcome}
            for act in shown
        ]
        return 200, {**page, "done": listed, "waiting": self.waiting_page(view, now)}

    def waiting_page(self, view: View, now: float) -> dict[str, Any] | None:
        """The act that waits for a second person."""
        found = self.log.waiting()
        if found is None or is_late(found[0], now) or found[0].wanted.round != view.round:
            return None
        waiting, given = found
        wanted = waiting.wanted
        return {
            "act": wanted.act,
            "key": wanted.key,
            "who": wanted.who,
            "words": words_of(wanted.act, wanted.round, given),
            "typed": POWERS[wanted.act].is_typed,
            "until": utc(waiting.since + PATIENCE),
        }

    def results(self) -> Reply:
        """The server's results, for people who have no token of the server."""
        try:
            return 200, self.context.operator.page("/v1/results", 20)
        except (NoReply, Refused) as fault:
            return refused("no_answer", str(fault), 502)

    def check(self, body: bytes) -> Reply:
        """The windows of a timetable."""
        try:
            value = object_in(body, {"timetable"})
            given = Given.of("plan", value)
            with self.acting:
                windows = windows_in(self.context, given.timetable)
            return 200, {"state": "checked", "windows": windows}
        except (BadRequest, TimetableFault) as fault:
            return refused("fault", str(fault))

    # ---- What it does

    def act(self, who: str, body: bytes) -> Reply:
        """Does what a person wants, or says why not."""
        try:
            wanted, given = wanted_in(who, body)
        except BadRequest as fault:
            return refused("shape", str(fault), 422)
        with self.acting:
            try:
                return self.judged(wanted, given)
            except StrangePlan as fault:
                return refused("strange_plan", str(fault))

    def judged(self, wanted: Wanted, given: Given) -> Reply:
        acts, found = self.log.lines(), self.log.waiting()
        plan = self.context.plan_file.read()
        view = self.viewer.look(plan, done_in(acts))
        now = self.clock.wall()
        situation = Situation(
            now,
            view.round,
            view.stamp,
            view.facts,
            self.people.names,
            frozenset(act.key for act in acts),
            found and found[0],
        )
        match judge(wanted, situation):
            case Refuse(why):
                return refused(why)
            case Ask(asked):
                self.note(asked, asked.who, words_of(asked.act, asked.round, given), WAITS)
                self.log.wait(asked, given, now)
                return 200, {"state": WAITS, "until": utc(now + PATIENCE)}
            case Withdraw():
                assert found
                words = words_of(found[0].wanted.act, found[0].wanted.round, found[1])
                self.note(wanted, wanted.who, words, WITHDRAWN)
                self.log.forget()
                return 200, {"state": WITHDRAWN}
            case Do(asked, people):
                if wanted.act == "confirm":
                    assert found
                    given = found[1]
                    self.log.forget()
                return self.do(wanted, asked, given, people, done_in(acts))
        raise AssertionError("there is no other verdict")

    def do(
        self, wanted: Wanted, asked: Wanted, given: Given, people: tuple[str, ...], acts: int
    ) -> Reply:
        """Does an act. `wanted` is the last word for it, and `asked` the act itself."""
        who, words = " and ".join(people), words_of(asked.act, asked.round, given)
        self.note(wanted, who, words, BEGUN)
        self.context.guard, self.context.who = self.guard_of(asked, acts), who
        try:
            carry_out(self.context, asked.act, asked.round, given)
        except Stale:
            self.note(wanted, who, words, Refusal.STALE.value)
            return refused(Refusal.STALE)
        except FAULTS as fault:
            self.note(wanted, who, words, str(fault))
            return refused("fault", str(fault))
        self.note(wanted, who, words, DONE)
        return 200, {"state": DONE, "words": words, "who": who}

    def guard_of(self, asked: Wanted, acts: int) -> Callable[[Plan], None]:
        """Refuses a change of the plan unless all is as the page showed it."""

        def guard(plan: Plan) -> None:
            view = self.viewer.look(plan, acts)
            is_whole = POWERS[asked.act].binds is Binds.ALL
            if view.round != asked.round or (is_whole and view.stamp != asked.stamp):
                raise Stale

        return guard

    def note(self, wanted: Wanted, who: str, words: str, outcome: str) -> None:
        time = utc(self.clock.wall())
        self.log.add(Act(wanted.key, time, who, words, wanted.round, outcome))


def done_in(acts: list[Act]) -> int:
    """How many acts were done."""
    return sum(act.outcome == DONE for act in acts)


# ---- Requests of pages


def object_in(body: bytes, keys: set[str]) -> dict[str, Any]:
    """The object that is a body of JSON, with exactly these keys."""
    try:
        value = value_in(body)
    except (ValueError, RecursionError) as error:
        raise BadRequest(f"the body is no JSON: {error}") from error
    if not isinstance(value, dict) or value.keys() != keys:
        raise BadRequest(f"the keys must be {', '.join(sorted(keys))}")
    return value


def wanted_in(who: str, body: bytes) -> tuple[Wanted, Given]:
    """What a person wants, and what the act is given."""
    value = object_in(body, ASKED)
    texts = [value[name] for name in ("act", "key", "stamp", "typed", "of")]
    if not all(isinstance(text, str) for text in texts) or type(value["round"]) is not int:
        raise BadRequest("round is a number, and act, key, stamp, typed, and of are texts")
    if not KEY.fullmatch(value["key"]):
        raise BadRequest("a key has 32 digits, 0 to 9 and a to f")
    is_word = value["act"] in ("confirm", "withdraw")
    if is_word and value["given"] != {}:
        raise BadRequest("a word on an act is given nothing")
    given = Given() if is_word else Given.of(value["act"], value["given"])
    wanted = Wanted(
        value["act"],
        value["key"],
        who,
        value["round"],
        value["stamp"],
        value["typed"],
        given.minutes,
        value["of"],
    )
    return wanted, given


def lock_of(folder: Path) -> Path:
    """The lock of the one desk of an auction."""
    return folder / "state" / "desk.lock"
