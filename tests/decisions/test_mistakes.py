"""The explorer finds each mistake that is planted in the rules of `decide`."""
from collections.abc import Callable
from typing import NamedTuple

import pytest

from auction.conductor.actions import Close
from tests.decisions import mistakes
from tests.decisions.conductor import Decide
from tests.decisions.explorer import BEGINNINGS, MORE, explore
from tests.decisions.mistakes import before, changed, without

pytestmark = pytest.mark.early
FOLDER, STARTED = "another auction's folder", "a conductor that starts after the window"
COMMAND, PAGE = "a command", "a page, the conductor late once"
STEP = "a step of the clock, late once"
RESTORED = "a journal that is put back"
HAND, KILLED, PAST = "a closing by hand", "a killed command", "a sheet past the doors"
SECOND, REBOOT = "a second conductor, a page", "a reboot and a step of the clock"


class Mistake(NamedTuple):
    """A mistake in words, what makes a `decide` with it, and the exploration that finds it."""

    words: str
    make: Callable[[], Decide]
    exploration: str


MISTAKES = [
    Mistake("another auction's plan is followed", lambda: without("another set-up"), FOLDER),
    Mistake("a window that was not opened is no doubt", lambda: without("did not open"), STARTED),
    Mistake("no sheets are no doubt", lambda: without("nobody has a sheet"), COMMAND),
    Mistake("an outage is no doubt", lambda: without("missed more than"), PAGE),
    Mistake("a clock that was set is no doubt", lambda: without("differ by more"), STEP),
    Mistake("a doubt holds nothing", lambda: without("a doubt is not released"), COMMAND),
    Mistake("connections are not waited for", lambda: without("before the last change"), COMMAND),
    Mistake(
        "the closing is made while the inner door is open",
        lambda: before("make it, for exactly", "less than `drain` ago"),
        COMMAND,
    ),
    Mistake("the inner door stays open", mistakes.with_an_open_inner_door, PAGE),
    Mistake("a pause stops no closing", lambda: without("paused"), COMMAND),
    Mistake("a curtain may be too short", lambda: without("draw it for"), COMMAND),
    Mistake(
        "a closing is sent however late",
        lambda: changed("send the closing", lambda look: Close(0, 10**9, 10**9)),
        PAGE,
    ),
    Mistake("a round is published at once", lambda: without("and the curtain is drawn"), COMMAND),
    Mistake("the curtain lifts once it is closed", mistakes.with_a_curtain_that_lifts_early, PAGE),
    Mistake("a word releases later doubts", mistakes.with_a_word_for_everything, STARTED),
    Mistake("there is no curtain", mistakes.without_a_curtain, PAGE),
    Mistake("sheets are not frozen", mistakes.with_sheets_that_are_never_frozen, COMMAND),
    Mistake("a journal may change once it is frozen", lambda: without("not the frozen one"), PAST),
    Mistake("a journal may lose sheets", lambda: without("lost sheets"), RESTORED),
    Mistake("a killed pause leaves doors open", lambda: without("is paused: shut both"), KILLED),
    Mistake("the clock is not noted after a start", lambda: without("was started since"), REBOOT),
    Mistake(
        "a closing by hand does not wait for connections",
        lambda: without("before the last change"),
        HAND,
    ),
    Mistake(
        "a closing by hand leaves the inner door open",
        lambda: without("the inner door is open"),
        HAND,
    ),
    Mistake("a closing by hand needs no sheet", lambda: without("nobody has a sheet"), HAND),
    Mistake(
        "a second conductor does not wait for connections",
        lambda: without("before the last change"),
        SECOND,
    ),
]


@pytest.mark.parametrize("mistake", MISTAKES, ids=lambda mistake: mistake.words)
def test_a_planted_mistake_is_found(mistake: Mistake) -> None:
    begin = {**BEGINNINGS, **MORE}[mistake.exploration]
    assert explore(begin, mistake.make()).broken
