"""What one person at the desk may do without another, and what needs a second person's word.

This is decided here and nowhere else, by plain data: POWERS is the table of docs/operators.md, and
`judge` applies it. Nothing here reads a clock, a file, or the network.
"""
import dataclasses
import enum

PATIENCE = 600  # seconds that an act waits for a second person
SOONEST = 5  # minutes until which one person may not continue a paused auction


class Binds(enum.Enum):
    """What must still be as the person's page showed it."""

    ROUND = "the round"
    ALL = "all that the page shows"


@dataclasses.dataclass(frozen=True)
class Power:
    """How many people an act needs, what it is bound to, and whether they type the round."""

    people: int
    binds: Binds
    is_typed: bool = False


POWERS = {
    "pause": Power(1, Binds.ROUND),
    "resume": Power(1, Binds.ALL),
    "extend": Power(1, Binds.ALL),
    "announce": Power(1, Binds.ALL),
    "plan": Power(1, Binds.ALL),
    "next": Power(2, Binds.ALL, is_typed=True),
    "close": Power(2, Binds.ALL, is_typed=True),
    "winners": Power(2, Binds.ALL),
}


class Refusal(enum.Enum):
    """Why nothing is done."""

    REPEATED = "repeated"
    STALE = "stale"
    NO_ACT = "no_act"
    ENDED = "ended"
    NOT_ENDED = "not_ended"
    PAUSED = "paused"
    NOT_PAUSED = "not_paused"
    NOT_HELD = "not_held"
    PUBLISHED = "published"
    TYPED = "typed"
    ONE_PERSON = "one_person"
    WAITING = "waiting"
    NOTHING_WAITS = "nothing_waits"
    TOO_LATE = "too_late"
    SAME_PERSON = "same_person"


@dataclasses.dataclass(frozen=True)
class Facts:
    """What of the auction decides whether an act is possible."""

    is_paused: bool = False
    is_held: bool = False  # whether the round waits for a word
    has_ended: bool = False
    has_winners: bool = False  # whether the winners are published


@dataclasses.dataclass(frozen=True)
class Wanted:
    """An act that a person wants.

    `key` is new for each act. `round` and `stamp` are those that the person's page showed, and
    `typed` is what the person typed to confirm. `of` is the key of the act that a second person
    confirms or withdraws.
    """

    act: str
    key: str
    who: str
    round: int
    stamp: str
    typed: str = ""
    minutes: float = 0.0
    of: str = ""


@dataclasses.dataclass(frozen=True)
class Waiting:
    """An act that waits for a second person, and since when."""

    wanted: Wanted
    since: float


@dataclasses.dataclass(frozen=True)
class Situation:
    """All that a verdict depends on, besides what is wanted."""

    now: float
    round: int
    stamp: str
    facts: Facts
    people: frozenset[str]
    used: frozenset[str]  # keys of acts that were wanted before
    waiting: Waiting | None = None


@dataclasses.dataclass(frozen=True)
class Do:
    """Do this act now, by the word of these people."""

    wanted: Wanted
    people: tuple[str, ...]


@dataclasses.dataclass(frozen=True)
class Ask:
    """Let the act wait for a second person."""

    wanted: Wanted


@dataclasses.dataclass(frozen=True)
class Withdraw:
    """The waiting act is not wanted any more."""


@dataclasses.dataclass(frozen=True)
class Refuse:
    """Do nothing."""

    why: Refusal


Verdict = Do | Ask | Withdraw | Refuse


def people_for(act: str, minutes: float = 0.0) -> int:
    """How many people an act needs."""
    if act == "resume" and minutes < SOONEST:
        return 2
    return POWERS[act].people


def why_not(act: str, facts: Facts) -> Refusal | None:
    """Why an act is not possible now, or None if it is."""
    if act == "announce":
        return None
    if act == "winners":
        if not facts.has_ended:
            return Refusal.NOT_ENDED
        return Refusal.PUBLISHED if facts.has_winners else None
    if facts.has_ended:
        return Refusal.ENDED
    if act == "resume":
        return None if facts.is_paused else Refusal.NOT_PAUSED
    if facts.is_paused and act != "plan":
        return Refusal.PAUSED
    if act == "next" and not facts.is_held:
        return Refusal.NOT_HELD
    return None


def judge(wanted: Wanted, seen: Situation) -> Verdict:
    """What is done about an act that a person wants."""
    if wanted.key in seen.used:
        return Refuse(Refusal.REPEATED)
    if wanted.act in ("confirm", "withdraw"):
        return judge_word(wanted, seen)
    if wanted.act not in POWERS:
        return Refuse(Refusal.NO_ACT)
    if why := refusal_of(wanted, seen):
        return Refuse(why)
    if not is_typed(wanted, wanted.typed):
        return Refuse(Refusal.TYPED)
    if people_for(wanted.act, wanted.minutes) == 1:
        return Do(wanted, (wanted.who,))
    if len(seen.people) < 2:
        return Refuse(Refusal.ONE_PERSON)
    if seen.waiting and not is_late(seen.waiting, seen.now):
        return Refuse(Refusal.WAITING)
    return Ask(wanted)


def judge_word(wanted: Wanted, seen: Situation) -> Verdict:
    """What is done about a word on the act that waits."""
    waiting = seen.waiting
    if waiting is None or waiting.wanted.key != wanted.of:
        return Refuse(Refusal.NOTHING_WAITS)
    if wanted.act == "withdraw":
        return Withdraw()
    if is_late(waiting, seen.now):
        return Refuse(Refusal.TOO_LATE)
    if wanted.who == waiting.wanted.who:
        return Refuse(Refusal.SAME_PERSON)
    if why := refusal_of(waiting.wanted, seen):
        return Refuse(why)
    if not is_typed(waiting.wanted, wanted.typed):
        return Refuse(Refusal.TYPED)
    return Do(waiting.wanted, (waiting.wanted.who, wanted.who))


def refusal_of(wanted: Wanted, seen: Situation) -> Refusal | None:
    """Why the page of the person who wanted an act is not of now, or the act is not possible."""
    is_whole = POWERS[wanted.act].binds is Binds.ALL
    if wanted.round != seen.round or (is_whole and wanted.stamp != seen.stamp):
        return Refusal.STALE
    return why_not(wanted.act, seen.facts)


def is_typed(wanted: Wanted, typed: str) -> bool:
    """Whether a person typed the number of the round that the act is about, if it must be typed."""
    return not POWERS[wanted.act].is_typed or typed == str(wanted.round)


def is_late(waiting: Waiting, now: float) -> bool:
    """Whether an act has waited too long. If the clock went back, nobody knows."""
    return not waiting.since <= now < waiting.since + PATIENCE
