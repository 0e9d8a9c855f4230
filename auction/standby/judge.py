"""Whether a copy may take over: one pure function of plain data.

Nothing here reads a clock, a file, or a socket. tests/standby enumerates what it is asked.
"""
import enum
from collections.abc import Callable
from typing import NamedTuple

PATIENCE = 1  # seconds by which two clocks may differ


class Reason(enum.Enum):
    """Why a machine may not take over."""

    SERVES = "this machine is no standby: it serves an auction itself, or has taken over already"
    INCOMPLETE = "there is no whole copy here: run `auction standby` on the first machine"
    CHANGED = "the files differ from those that were copied"
    STRANGER = "set-up, commitment, secrets, plan, and journal are not of one auction"
    FUTURE = "the copy was made later than now: this machine's clock is behind"
    CLOCKS = "the clocks of the two machines differ: set this one by NTP, then --clock-is-right"
    BEHIND = "a round is published that the journal here does not have"
    CONTRADICTED = "a round was published with another digest than the journal here has"
    RECEIPTS = "a sheet has a receipt, and the journal here does not have it"
    NOT_FENCED = "nobody has made sure that the first machine serves nobody any more"
    ELSEWHERE = "the first machine was fenced for another take-over"
    ANSWERS = "the first machine still answers"
    CUT_SHORT = "the first machine has another end of the journal than this copy"


class Fence(enum.Enum):
    """How it is known that the first machine serves nobody any more."""

    NONE = "it is not known"
    STOPPED = "it has stopped by `auction fence`, and says where its journal ends"
    CUT_OFF = "a command has cut it off"
    WORD = "a person says that it is off"


class End(NamedTuple):
    """Where a journal ends: its bytes, and the digest of all its texts."""

    length: int
    digest: str


class Copy(NamedTuple):
    """What this machine has of the auction.

    `rounds` has the digests of the rounds that the journal closes. `published` has each round that
    anyone has seen as published, with its digest.
    """

    is_standby: bool
    is_whole: bool
    is_as_copied: bool
    is_of_one_auction: bool
    end: End
    rounds: tuple[str, ...]
    published: frozenset[tuple[int, str]]
    sheets_without_record: int  # receipts whose sheets the journal does not have
    copied_at: float  # by the first machine's clock
    ahead: float  # this machine's clock less the first one's, at the last copy


class First(NamedTuple):
    """What is known of the machine that served. `taker` is the take-over that it was fenced for,
    and `end` where its journal ended then.
    """

    fence: Fence
    taker: str
    end: End | None
    answers: bool


class Seen(NamedTuple):
    """All that a take-over depends on. `taker` is the number that was drawn for it."""

    copy: Copy
    first: First
    taker: str
    now: float
    clock_is_right: bool  # a person's word


Rule = tuple[Reason, Callable[[Seen], bool]]


def is_ahead_of_the_journal(seen: Seen) -> bool:
    return any(number > len(seen.copy.rounds) for number, _ in seen.copy.published)


def is_contradicted(seen: Seen) -> bool:
    rounds = seen.copy.rounds
    return any(
        digest != rounds[number - 1]
        for number, digest in seen.copy.published
        if 1 <= number <= len(rounds)
    )


def ends_elsewhere(seen: Seen) -> bool:
    is_stopped = seen.first.fence is Fence.STOPPED
    return is_stopped and seen.first.end != seen.copy.end


def is_for_another(seen: Seen) -> bool:
    return seen.first.fence is Fence.STOPPED and seen.first.taker != seen.taker


RULES: tuple[Rule, ...] = (
    (Reason.SERVES, lambda seen: not seen.copy.is_standby),
    (Reason.INCOMPLETE, lambda seen: not seen.copy.is_whole),
    (Reason.CHANGED, lambda seen: not seen.copy.is_as_copied),
    (Reason.STRANGER, lambda seen: not seen.copy.is_of_one_auction),
    (Reason.FUTURE, lambda seen: seen.copy.copied_at > seen.now + PATIENCE),
    (
        Reason.CLOCKS,
        lambda seen: abs(seen.copy.ahead) > PATIENCE and not seen.clock_is_right,
    ),
    (Reason.BEHIND, is_ahead_of_the_journal),
    (Reason.CONTRADICTED, is_contradicted),
    (Reason.RECEIPTS, lambda seen: seen.copy.sheets_without_record > 0),
    (Reason.NOT_FENCED, lambda seen: seen.first.fence is Fence.NONE),
    (Reason.ELSEWHERE, is_for_another),
    (Reason.ANSWERS, lambda seen: seen.first.answers),
    (Reason.CUT_SHORT, ends_elsewhere),
)


def reasons_against(seen: Seen, rules: tuple[Rule, ...] = RULES) -> tuple[Reason, ...]:
    """All reasons why this machine may not take over. None if it may."""
    return tuple(reason for reason, holds in rules if holds(seen))
