"""Which games of a host end, and who gets a place: every state of small hosts, and mistakes."""
import dataclasses
import itertools
from collections.abc import Callable, Iterator

import pytest

from auction.practice import places
from auction.practice.places import Limits, Seen, Verdict, Why

pytestmark = pytest.mark.early

LIMITS = Limits(games=2, of_network=1, longest=100, idle=30, left=10, shown=20)
NOW = 1000.0
Decide = Callable[[Seen, float, Limits], Why | None]
Admit = Callable[[list[Seen], str, Limits], Verdict]


def ages(*bounds: float) -> list[float]:
    """Ages around some bounds: the last one before it, it, and one after it."""
    return sorted({0, *(bound + step for bound in bounds for step in (-1, 0, 1))})


def games() -> Iterator[Seen]:
    """Games of all ages that differ for the decision."""
    everything = itertools.product(
        ages(LIMITS.longest),
        ages(LIMITS.idle),
        ages(LIMITS.left),
        [None, *ages(LIMITS.shown)],
        [False, True],
    )
    for begun, acted, heard, over, failed in everything:
        end = None if over is None else NOW - over
        yield Seen("a", NOW - begun, NOW - acted, NOW - heard, end, failed)


def is_right(game: Seen, found: Why | None) -> bool:
    """Whether a decision is as the bounds say: the reason holds, and none if no reason holds."""
    plays = game.over is None
    reasons = {
        Why.FAILED: game.failed,
        Why.LONG: NOW - game.begun >= 100,
        Why.LEFT: NOW - game.heard >= 10,
        Why.IDLE: plays and NOW - game.acted >= 30,
        Why.SHOWN: not plays and NOW - (game.over or 0) >= 20,
    }
    return reasons[found] if found else not any(reasons.values())


def test_each_game_ends_exactly_if_it_passes_a_bound() -> None:
    seen = list(games())
    assert len(seen) == 4 * 4 * 4 * 5 * 2
    assert [game for game in seen if not is_right(game, places.why(game, NOW, LIMITS))] == []


def mistaken(**changed: float) -> Decide:
    """The decision with another bound."""
    return lambda game, now, limits: places.why(game, now, dataclasses.replace(limits, **changed))


def later(game: Seen, now: float, limits: Limits) -> Why | None:
    return places.why(game, now - 1, limits)


def forgets_failed(game: Seen, now: float, limits: Limits) -> Why | None:
    return places.why(dataclasses.replace(game, failed=False), now, limits)


def forgets_over(game: Seen, now: float, limits: Limits) -> Why | None:
    return places.why(dataclasses.replace(game, over=None), now, limits)


def polling_is_playing(game: Seen, now: float, limits: Limits) -> Why | None:
    return places.why(dataclasses.replace(game, acted=game.heard), now, limits)


def bids_are_the_beginning(game: Seen, now: float, limits: Limits) -> Why | None:
    return places.why(dataclasses.replace(game, begun=game.acted), now, limits)


MISTAKES: dict[str, Decide] = {
    "no longest time": mistaken(longest=1e9),
    "no idle time": mistaken(idle=1e9),
    "closed pages stay": mistaken(left=1e9),
    "results stay": mistaken(shown=1e9),
    "a second late": later,
    "a failed game goes on": forgets_failed,
    "a game that is over is idle": forgets_over,
    "a page that polls is played": polling_is_playing,
    "bids begin a game again": bids_are_the_beginning,
}


@pytest.mark.parametrize("mistake", MISTAKES.values(), ids=MISTAKES)
def test_a_mistake_about_an_end_is_found(mistake: Decide) -> None:
    assert [game for game in games() if not is_right(game, mistake(game, NOW, LIMITS))]


# ---- Places

CROWDS = [list(crowd) for count in range(4) for crowd in itertools.product("ab", repeat=count)]


def hosts() -> Iterator[tuple[list[Seen], str, Limits]]:
    for crowd, network, most, of_network in itertools.product(CROWDS, "abc", (1, 2, 3), (1, 2)):
        seen = [Seen(each, NOW, NOW, NOW) for each in crowd]
        yield seen, network, dataclasses.replace(LIMITS, games=most, of_network=of_network)


def keeps_bounds(admit: Admit) -> bool:
    """Whether a place is given exactly if the host and the network have one."""
    for seen, network, limits in hosts():
        own = sum(game.network == network for game in seen)
        is_free = len(seen) < limits.games and own < limits.of_network
        found = admit(seen, network, limits)
        if (found is Verdict.OPEN) != is_free:
            return False
        if found is Verdict.FULL and len(seen) < limits.games:
            return False
    return True


def test_a_place_is_given_exactly_if_there_is_one() -> None:
    assert keeps_bounds(places.verdict)


ADMITS: dict[str, Admit] = {
    "one more": lambda seen, network, limits: places.verdict(seen[1:], network, limits),
    "one less": lambda seen, network, limits: places.verdict(
        [*seen, Seen("z", NOW, NOW, NOW)], network, limits
    ),
    "any network": lambda seen, network, limits: places.verdict(seen, "other", limits),
    "all are one network": lambda seen, network, limits: places.verdict(
        [dataclasses.replace(game, network=network) for game in seen], network, limits
    ),
}


@pytest.mark.parametrize("mistake", ADMITS.values(), ids=ADMITS)
def test_a_mistake_about_places_is_found(mistake: Admit) -> None:
    assert not keeps_bounds(mistake)


def test_a_place_is_free_when_it_was_promised() -> None:
    for ends in itertools.product((0, 40, 99), repeat=2):
        seen = [Seen("a", NOW - age, NOW, NOW) for age in ends]
        free = places.free_at(seen, LIMITS)
        assert free is not None
        assert any(places.why(game, free, LIMITS) for game in seen)
    assert places.free_at([], LIMITS) is None
