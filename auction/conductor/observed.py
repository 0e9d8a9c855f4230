"""What a decision of the conductor depends on: the plan, the clock, the gate, and the server."""
import dataclasses
import enum
from typing import NamedTuple

TEN = 10  # seconds: nginx sees windows and curtains in steps of this
FOREVER = 1 << 62


def whole_ten(seconds: float) -> int:
    """The least whole ten seconds that is not before."""
    return -int(-seconds // TEN) * TEN


class Reason(enum.Enum):
    """Why a round is not closed without a person's word.

    Each is stored once it is seen (latched).
    """

    NOT_OPENED = "its window was not open as announced"
    OUTAGE = "bidders could not reach the auction for a part of its window"
    CLOCK = "the clock was set since its window was announced"
    NO_SHEETS = "nobody has a sheet in force"
    TOO_MANY_PAIRS = "more pairs of bidder and product matter than a closing can list"
    LOST = "the journal has lost sheets that it had"
    CHANGED = "the journal has changed since its sheets were frozen, or its closing was made"
    REFUSED = "the server refuses its closing"


class State(enum.Enum):
    """What the conductor waits for."""

    STRANGER = "`auction clear`"
    GONE = "the server"
    MISMATCH = "a server that has lost its journal"
    CURTAIN = "the curtain to lift"
    ENDED = "nothing"
    PAUSED = "the word to continue"
    UNPLANNED = "a window"
    BEFORE = "the window to open"
    OPEN = "the window to end"
    DRAINING = "requests that began in time"
    PENDING = "requests on their way to the server"
    FREEZING = "the second at which the sheets are frozen"
    HELD = "a person's word"


@dataclasses.dataclass(frozen=True)
class Limits:
    """The settings that a decision depends on, in seconds, and the most pairs of a closing."""

    drain: int  # from a window's end until the inner door shuts
    publish: int  # from a window's end until the curtain lifts; 0 for no curtain
    longest: int  # no closing takes longer
    freeze: int = 2  # from then until the sheets are frozen
    drift: float = 1.0  # by which the clock of day and the time that passed may differ
    missed: float = 0.02  # the share of a window in which bidders may miss the auction
    pairs: int = 16_384

    def shuts(self, closes: int) -> int:
        """When the inner door shuts after a window's end."""
        return whole_ten(closes + self.drain)

    def freezes(self, closes: int) -> int:
        """When the sheets are frozen, whoever has one: then nothing is on its way any more."""
        return self.shuts(closes) + self.freeze

    def curtain(self, draws: int, closes: int) -> tuple[int, int]:
        """From when until when the curtain is drawn for a window."""
        return (draws, whole_ten(closes + self.publish)) if self.publish else (0, 0)

    def doors(self, opens: int, closes: int) -> "Gate":
        """Both doors are open in the window, and the curtain is drawn at its end."""
        return Gate(opens, closes, self.shuts(closes), *self.curtain(closes, closes))


class Gate(NamedTuple):
    """What the files of gate/ say: from when and until when the outer and the inner door take
    sheets, and from when until when the curtain is drawn. 0 is never.
    """

    opens: int = 0
    takes: int = 0
    late: int = 0
    draws: int = 0
    lifts: int = 0


class Window(NamedTuple):
    """The current round's window, and whether this conductor opened it and announced that."""

    opens: int
    closes: int
    opened: bool = False
    announced: bool = False


@dataclasses.dataclass(frozen=True)
class Plan:
    """What the plan says of the current round.

    A word releases the doubts of its time, and no other.
    """

    auction: str
    window: Window | None
    paused: bool = False
    doubts: frozenset[Reason] = frozenset()
    released: frozenset[Reason] = frozenset()


class Server(NamedTuple):
    """The status, and the journal that it comes from.

    It has the closed rounds, whether the last one ended the auction, and the digest of the
    journal's last entry. It also counts the bidders with a sheet in force, and the pairs that
    matter to the closing of these sheets.
    """

    closed: int
    ended: bool
    digest: str
    sheets: int
    pairs: int


@dataclasses.dataclass(frozen=True)
class Observed:
    """All that a decision depends on."""

    auction: str  # the digest of set-up and commitment
    now: float  # the time of day
    passed: float  # the time since the machine started, which nobody can set
    drift: float  # the clock of day less the time that passed, since the window was announced
    restarted: bool  # whether the machine was started since the window was announced
    missed: float  # the share of the window so far in which bidders could not reach the auction
    plan: Plan
    gate: Gate
    server: Server | None  # None if it does not answer, or its journal cannot be read
    lost: bool  # whether the journal lacks something that was read in it before
    pending: bool  # whether a connection from before the last change of the gate is still open
    frozen: str | None  # the journal's digest that is published for this window
    fixed: str | None  # the journal's digest for which the closing on the disk was made
    published: int  # rounds
    announced: int  # closed rounds whose closing is announced
