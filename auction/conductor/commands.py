"""The operator's commands to a running auction.

Each is one change of the plan, together with its announcement.
"""
import dataclasses
from pathlib import Path

from . import closing, report, timetable
from .clock import in_words, utc
from .context import Context
from .increments import in_words as increments_in_words
from .increments import increments_for
from .observed import TEN, Reason, whole_ten
from .plan import Ended, Pause, Plan
from .server import NoReply, Refused
from .timetable import Window, move_later, replaced

LEAST_MINUTES, MOST_MINUTES = 1 / 6, 1440
LEAST_LEFT = 60  # seconds that a window has at least if it opens again


class CommandFault(Exception):
    """Why a command changes nothing."""


@dataclasses.dataclass(frozen=True)
class Closing:
    """The round to close early, its increments, and whether to close it without a sheet."""

    round: int
    increments: list[int]
    without_sheets: bool


def current(context: Context) -> int:
    """The current round. If the server is gone, it is the one after the last published round."""
    try:
        status = context.status()
    except (NoReply, Refused):
        last, ended = context.public.published(), context.public.has_ended()
        status = {"round": last if ended else last + 1, "ended": ended}
    if status["ended"]:
        raise CommandFault(f"the auction ended after round {status['round']}")
    return status["round"]


def window_of(context: Context, plan: Plan, number: int) -> Window:
    """A round's window, of which the times may still change."""
    if number != context.public.published() + 1:
        raise CommandFault(
            f"round {number - 1} is closed, and its results are not published yet: try again"
        )
    if number not in plan.windows:
        raise CommandFault(f"round {number} has no window: give it one by plan FILE")
    if context.auction.body_file(number).exists():
        raise CommandFault(f"the closing of round {number} is fixed, and may have been sent")
    return plan.windows[number]


def check_minutes(minutes: float, least: float) -> None:
    if not least <= minutes <= MOST_MINUTES:
        raise CommandFault(f"minutes must be {least:g} to {MOST_MINUTES}")


def plan(context: Context, path: Path) -> None:
    """Replaces the windows of the rounds that have not begun, and announces it."""
    fresh = timetable.read(path)
    with context.changing() as changed:
        number = current(context)
        begun, changed.windows = taken(context, changed, number, fresh.windows)
        later = [changed.windows[number] for number in sorted(changed.windows) if number > begun]
        for one in later:
            one.note_clock(context.clock)
        if begun == number:
            keep_increments(changed, number)
        first = f" Round {begun + 1} opens at {in_words(later[0].opens)}."
        increments = ""
        if fresh.increments not in (None, changed.increments):
            changed.increments = fresh.increments or []
            increments = " " + increments_in_words(changed.increments)
        context.note(changed, "plan")
        changed.announce(
            f"The timetable has {len(later)} {'window' if len(later) == 1 else 'windows'} from now "
            f"on.{first}{increments}"
        )


def taken(
    context: Context, plan: Plan, number: int, fresh: list[Window]
) -> tuple[int, dict[int, Window]]:
    """The last round that has begun, and the windows by round once fresh ones are taken now.

    A TimetableFault says why they are not.
    """
    now, settings = context.clock.wall(), context.settings
    window = plan.windows.get(number)
    begun = number if window and window.opens <= now else number - 1
    return begun, replaced(plan.windows, begun, fresh, now, settings.gap, settings.notice)


def keep_increments(changed: Plan, number: int) -> None:
    """A round that has begun keeps its rules of increments, since its bids may be known.

    If the server has refused its closing, the new ones hold for it too.
    """
    standing = {doubt.reason for doubt in changed.doubts_of(number) if not doubt.is_released}
    if Reason.REFUSED.name in standing:
        changed.begun = None
    else:
        changed.begin(number)


def check(context: Context, path: Path) -> None:
    """Prints the windows of a timetable in UTC, and changes nothing.

    Refuses what `plan` would refuse now.
    """
    windows = timetable.read(path).windows
    timetable.check_gaps(windows, context.settings.gap)
    taken(context, context.plan_file.read(), current(context), windows)
    for window in windows:
        context.say(f"{utc(window.opens)} {utc(window.closes)}")


def pause(context: Context, words: str) -> None:
    """Shuts the gate at once, and says why. Nothing opens or closes until `resume`."""
    context.gate.shut(
        context.clock.wall()
    )  # before it waits for a conductor that is closing a round
    with context.changing() as changed:
        if changed.paused:
            raise CommandFault(f"the auction is paused already: {changed.paused.words}")
        context.note(changed, "pause", current(context))  # refuses after the end
        changed.paused = Pause(context.clock.wall(), words)
        changed.announce(f"The auction is paused. {words}")
        context.plan_file.store(changed)
        context.gate.shut(context.clock.wall())


def resume(context: Context, minutes: float) -> None:
    """Continues.

    A window that was cut short opens again after these minutes, for the time that was left.
    """
    check_minutes(minutes, 0)
    with context.changing() as changed:
        if not changed.paused:
            raise CommandFault("the auction is not paused")
        since, now, number = changed.paused.since, context.clock.wall(), current(context)
        changed.paused = None
        context.note(changed, "resume", number)
        window, begin = changed.windows.get(number), whole_ten(now + 60 * minutes)
        words = ""
        if window and since < window.closes and not context.auction.body_file(number).exists():
            if begin > window.opens:
                left = max(LEAST_LEFT, window.closes - max(since, window.opens))
                window.opens, window.closes, window.opened = begin, begin + whole_ten(left), None
                window.note_clock(context.clock)
                move_later(changed.windows, number, context.settings.gap)
            times = f"from {in_words(window.opens)} to {in_words(window.closes)}"
            words = f" Round {number} is open {times}."
        changed.announce(f"The auction continues.{words}")


def extend(context: Context, minutes: float) -> None:
    """Adds time to the current window. One that is shut opens again at once."""
    check_minutes(minutes, LEAST_MINUTES)
    with context.changing() as changed:
        if changed.paused:
            raise CommandFault("the auction is paused: resume it first")
        now, number = context.clock.wall(), current(context)
        window = window_of(context, changed, number)
        if window.closes <= now:
            window.opens = window.closes = whole_ten(now)
            window.opened = None
        window.closes += whole_ten(60 * minutes)
        window.note_clock(context.clock)
        changed.forget(number)
        context.note(changed, "extend", number)
        move_later(changed.windows, number, context.settings.gap)
        end = in_words(window.closes)
        begin = f"from {in_words(window.opens)} to" if now < window.opens else "until"
        changed.announce(f"Round {number} is open {begin} {end}, longer than announced before.")
        context.plan_file.store(changed)
        if window.opened is not None:
            # without a pause until the conductor looks
            doors = context.settings.limits().doors(window.opens, window.closes)
            context.gate.write(doors, now)


def announce(context: Context, words: str) -> None:
    """Announces something to everyone."""
    with context.changing() as changed:
        context.note(changed, "announce")
        changed.announce(words)


def close_next(context: Context, number: int, without_sheets: bool, no_ties: bool = False) -> None:
    """Gives the word that the conductor waits for, to close this round.

    It releases the doubts of now, and no later one.
    """
    with context.changing() as changed:
        shown = report.shown(context.folders)
        if (
            not shown
            or shown["state"] != report.State.HELD.value
            or shown["round"] != number
            or current(context) != number
        ):
            raise CommandFault(
                f"round {number} does not wait for a word. "
                + (shown["waits_for"] if shown else "No conductor has run yet.")
            )
        standing = {doubt.reason for doubt in changed.doubts_of(number) if not doubt.is_released}
        for reason, is_given in (
            (Reason.NO_SHEETS, without_sheets),
            (Reason.TOO_MANY_PAIRS, no_ties),
        ):
            if reason.name in standing and not is_given:
                raise CommandFault(f"{reason.value}: add {report.OPTIONS[reason]}")
        context.note(changed, "next", number)
        release(context, changed, number)


def release(context: Context, changed: Plan, number: int) -> None:
    """A person's word: the doubts about a round so far hold it no more.

    From now on the clock is right, so that it can be doubted again.
    """
    changed.release(number)
    for window in changed.windows.values():
        window.note_clock(context.clock)


def end_early(context: Context, changed: Plan, asked: Closing) -> None:
    """Ends the window of the current round now, to close it with these increments.

    This is a person's word too: it releases the doubts of now.
    """
    number, now = asked.round, context.clock.wall()
    window = changed.windows.get(number)
    before = window and window.closes
    if window is None or now < window.opens:
        begin = int(now) // TEN * TEN
        changed.windows[number] = window = Window(begin, begin, now)
    elif whole_ten(now) < window.closes:
        window.closes = whole_ten(now)
        if window.opened is not None:
            context.gate.write(context.settings.limits().doors(window.opens, window.closes), now)
    release(context, changed, number)
    changed.ended = Ended(number, asked.increments)
    announce_increments(context, changed, asked)
    if asked.without_sheets:
        changed.latch(number, Reason.NO_SHEETS, is_released=True)
    if before != window.closes:
        end = in_words(window.closes)
        changed.announce(f"Round {number} ends at {end}, earlier than announced before.")


def announce_increments(context: Context, changed: Plan, asked: Closing) -> None:
    """Announces the increments that a person gives a round, if its rules give others."""
    results = context.public.results(asked.round - 1)
    ruled = increments_for(changed.rules_of(asked.round), context.setup, asked.round + 1, results)
    given = closing.spread(context.setup, asked.increments)
    if given != ruled:
        percents = ", ".join(map(str, given if len(set(given)) > 1 else given[:1]))
        changed.announce(
            f"The operator closes round {asked.round} with other increments than announced: "
            f"{percents} percent."
        )


def winners(context: Context) -> None:
    """Publishes what each bidder won and pays."""
    with context.changing() as changed:
        last = context.public.published()
        results = context.public.results(last)
        if not results or not results["ended"]:
            raise CommandFault("the auction has not ended")
        context.public.winners_of(context.auction.results_file(last))  # it must be there
        context.note(changed, "winners")
        changed.winners = True
