"""Which games of a hosted practice end, and who gets a place: pure functions of what is seen.

Nothing here reads a clock, a file, or a socket. tests/practice enumerates small hosts.
"""
import dataclasses
import enum
from collections.abc import Iterable


class Why(enum.Enum):
    """Why a game ends, in words for its player."""

    FAILED = "its server ended"
    SHOWN = "it is over, and its results were shown"
    LONG = "it lasted as long as a game may last"
    LEFT = "its page was closed"
    IDLE = "no bids came for a long time"


class Verdict(enum.Enum):
    """Whether a person gets a place."""

    OPEN = "a place is free"
    FULL = "all places are taken"
    OFTEN = "too many games were begun from this network"


@dataclasses.dataclass(frozen=True)
class Limits:
    """The bounds of a host, in games and seconds."""

    games: int = 32
    of_network: int = 16  # of the games at once, begun from one network
    longest: float = 7200  # from the beginning of a game to its end
    idle: float = 1200  # since the last bids, or since the beginning
    left: float = 300  # since the last request of its page
    shown: float = 900  # since the auction ended


@dataclasses.dataclass(frozen=True)
class Seen:
    """A game: who began it, and when what happened, by one clock."""

    network: str
    begun: float
    acted: float  # the last accepted bids, or the beginning
    heard: float  # the last request of its page, or the beginning
    over: float | None = None  # the end of its auction
    failed: bool = False


def why(game: Seen, now: float, limits: Limits) -> Why | None:
    """Why a game ends now, or None if it continues."""
    if game.failed:
        return Why.FAILED
    if now - game.begun >= limits.longest:
        return Why.LONG
    if now - game.heard >= limits.left:
        return Why.LEFT
    if game.over is not None:
        return Why.SHOWN if now - game.over >= limits.shown else None
    return Why.IDLE if now - game.acted >= limits.idle else None


def verdict(games: Iterable[Seen], network: str, limits: Limits) -> Verdict:
    """Whether a person of a network gets a place next to these games."""
    networks = [game.network for game in games]
    if len(networks) >= limits.games:
        return Verdict.FULL
    return Verdict.OFTEN if networks.count(network) >= limits.of_network else Verdict.OPEN


def free_at(games: Iterable[Seen], limits: Limits) -> float | None:
    """The latest time at which the next place is free, or None if there is no game."""
    return min((game.begun + limits.longest for game in games), default=None)
