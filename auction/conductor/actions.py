"""What the conductor can do: each action is carried out, or not, as a whole."""
import dataclasses

from .observed import Gate, Reason, State


@dataclasses.dataclass(frozen=True)
class SetGate:
    """Lets the files of gate/ become these, and notes the connections that are open then."""

    gate: Gate


@dataclasses.dataclass(frozen=True)
class NoteOpened:
    """Stores in the plan that this conductor opened the window of a round."""

    number: int


@dataclasses.dataclass(frozen=True)
class NoteClock:
    """Notes the clock once more for all windows, since the machine was started."""


@dataclasses.dataclass(frozen=True)
class AnnounceOpen:
    """Announces that the window is open, and until when."""


@dataclasses.dataclass(frozen=True)
class Latch:
    """Stores a doubt about a round in the plan.

    If that round is closed meanwhile, the doubt is none of the next one.
    """

    number: int
    reason: Reason


@dataclasses.dataclass(frozen=True)
class Freeze:
    """Publishes and signs the journal's digest, before its closing."""

    number: int
    digest: str


@dataclasses.dataclass(frozen=True)
class Fix:
    """Brings the closing to the disk, with a tie-breaking number for each pair that matters by this
    journal.
    """

    digest: str


@dataclasses.dataclass(frozen=True)
class Close:
    """Sends the closing that is on the disk, unless it is too early or too late: the curtain must
    be drawn, and stay so for as long as a closing may take. The clock is read once more for this,
    and a look is good for a second only.

    If the server refuses the closing: removes it, and latches REFUSED.
    """

    earliest: int
    latest: int
    seen_at: float  # by the time that has passed


@dataclasses.dataclass(frozen=True)
class Publish:
    """Publishes a closed round."""

    number: int


@dataclasses.dataclass(frozen=True)
class AnnounceClosing:
    """Announces that a round is closed, with its digest."""

    number: int


@dataclasses.dataclass(frozen=True)
class Wait:
    """Does nothing, until a time if it is known. The report says for what, with which doubts."""

    state: State
    until: float | None = None
    doubts: frozenset[Reason] = frozenset()


Action = (
    SetGate
    | NoteOpened
    | NoteClock
    | AnnounceOpen
    | Latch
    | Freeze
    | Fix
    | Close
    | Publish
    | AnnounceClosing
    | Wait
)
