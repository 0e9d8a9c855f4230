"""The plan: what the operator and the timetable want.

It is one file, changed by one process at a time, and whole after any crash.
"""
import dataclasses
import json
import secrets
from pathlib import Path
from typing import Any, Self

from . import disk, stored
from .increments import DEFAULT, Rule
from .observed import Reason
from .timetable import Window


@dataclasses.dataclass
class Pause:
    """Since when the auction is paused, and why, for everyone."""

    since: float
    words: str


@dataclasses.dataclass
class Doubt:
    """Why a round is not closed without a person's word, and whether a person has given it.

    `reason` is the name of a Reason. `words` has more than its usual words, or nothing.
    """

    round: int
    reason: str
    words: str = ""
    is_released: bool = False

    def in_words(self) -> str:
        return self.words or Reason[self.reason].value


@dataclasses.dataclass
class Ended:
    """The increments with which a person ended a round's window early."""

    round: int
    increments: list[int]


@dataclasses.dataclass
class Act:
    """What a person did, for the notices: which command, who, and about which round.

    `after` is how many notices there were.
    """

    what: str
    who: str
    round: int | None
    after: int


@dataclasses.dataclass
class Begun:
    """The rules of increments of a round whose window has begun: they hold until it is closed."""

    round: int
    increments: list[Rule]


@dataclasses.dataclass
class Notice:
    """An announcement that goes with a change of the plan.

    Its key is drawn with the change, so it is made once.
    """

    key: str
    text: str


@dataclasses.dataclass
class Plan:
    """The windows by round, the rules of increments, and what a person or the conductor has
    decided.
    """

    auction: str  # the digest of the set-up and the commitment that it is for
    windows: dict[int, Window] = dataclasses.field(default_factory=dict)
    increments: list[Rule] = dataclasses.field(default_factory=lambda: [Rule(DEFAULT)])
    paused: Pause | None = None
    doubts: list[Doubt] = dataclasses.field(default_factory=list)
    ended: Ended | None = None
    notices: list[Notice] = dataclasses.field(default_factory=list)
    begun: Begun | None = None
    winners: bool = False  # whether to publish what each bidder has won
    acts: list[Act] = dataclasses.field(default_factory=list)

    @classmethod
    def of(cls, value: dict[str, Any]) -> Self:
        def one(kind: Any, part: Any) -> Any:
            return part and kind(**part)

        begun = value.get("begun")
        return cls(
            value.get("auction", ""),
            {int(number): Window(**part) for number, part in value["windows"].items()},
            [Rule(**part) for part in value["increments"]],
            one(Pause, value["paused"]),
            [Doubt(**part) for part in value["doubts"]],
            one(Ended, value["ended"]),
            [Notice(**part) for part in value["notices"]],
            begun and Begun(begun["round"], [Rule(**part) for part in begun["increments"]]),
            value.get("winners", False),
            [Act(**part) for part in value.get("acts", [])],
        )

    def rules_of(self, number: int) -> list[Rule]:
        """The rules of increments by which a round is closed."""
        is_begun = self.begun is not None and self.begun.round == number
        return self.begun.increments if self.begun and is_begun else self.increments

    def begin(self, number: int) -> None:
        """From now on a round's rules of increments stay, whatever timetable comes."""
        self.begun = Begun(number, self.rules_of(number))

    def doubts_of(self, number: int) -> list[Doubt]:
        """The doubts about a round, also those that a word has released."""
        return [doubt for doubt in self.doubts if doubt.round == number]

    def latch(
        self, number: int, reason: Reason, words: str = "", is_released: bool = False
    ) -> None:
        """Stores a doubt, in place of an older one of this reason."""
        self.drop(number, reason)
        self.doubts.append(Doubt(number, reason.name, words, is_released))

    def drop(self, number: int, reason: Reason) -> None:
        """Forgets a doubt about a round, so that it can come again."""
        self.doubts = [
            one for one in self.doubts if (one.round, one.reason) != (number, reason.name)
        ]

    def release(self, number: int) -> None:
        """The doubts about a round so far hold it no more. That of the clock is gone."""
        for doubt in self.doubts_of(number):
            doubt.is_released = True
        self.doubts = [one for one in self.doubts if one.reason != Reason.CLOCK.name]

    def forget(self, number: int) -> None:
        """Forgets the doubts about a round, and with which increments a person ended it."""
        self.doubts = [doubt for doubt in self.doubts if doubt.round != number]
        self.ended = None

    def announce(self, text: str) -> None:
        """Notes what to announce once this plan is stored."""
        self.notices.append(Notice(secrets.token_hex(8), text))


class StrangePlan(ValueError):
    """The plan on disk is another auction's."""


class PlanFile:
    """The plan on disk."""

    def __init__(self, path: Path, auction: str) -> None:
        self.path, self.auction = path, auction

    def read(self) -> Plan:
        """The plan, or one without windows if there is none yet.

        A StrangePlan if it is another auction's.
        """
        if not self.path.exists():
            return Plan(self.auction)
        try:
            plan = Plan.of(stored.read(self.path))
        except (AttributeError, KeyError, TypeError) as fault:
            raise stored.Damaged(self.path, f"it is no plan: {fault!r}") from fault
        if plan.auction != self.auction:
            raise StrangePlan(
                f"{self.path} is of another auction, or of an earlier commitment. "
                "Put the folders state, operator, asked, kept, public and receipts of that "
                "auction away."
            )
        return plan

    def store(self, plan: Plan) -> None:
        """Stores the plan if it is another one than before."""
        text = json.dumps(dataclasses.asdict(plan), indent=1) + "\n"
        if not self.path.exists() or self.path.read_text(encoding="utf-8") != text:
            disk.store(self.path, text)
