"""Auctions whose conductor is killed before its steps, by itself or together with the machine."""
import pathlib

from auction.conductor.clock import utc
from auction.conductor.closing import last_closed
from tests.conductor.finished import check
from tests.lib.clock import BEGIN
from tests.lib.conducted import ConductedAuction, Times, conducted

WINDOWS: Times = [(30, 60), (120, 150), (210, 240)]
CLOSED = [72, 162, 252]  # the drain, and until sheets are frozen, after each window
# The steps of an auction that nobody disturbs: writes, syncs, and requests and replies of closings.
STEPS = range(1, 245)


def undisturbed(program: pathlib.Path, publish: int = 0) -> tuple[list[str], int]:
    """The audit of the auction that nobody disturbs, and how many steps it takes."""
    with conducted(program, WINDOWS, missed=100, publish=publish) as auction:
        auction.disk.count = 0
        auction.play(step=15)
        assert auction.closed_at() == CLOSED
        return check(auction), auction.disk.count


def check_gate(auction: ConductedAuction) -> None:
    """Sheets came through the gate only in their windows, and no round was closed early."""
    windows = {number: auction.window(number) for number in (1, 2, 3)}
    for number, time in auction.opens:
        assert windows[number][0] <= time < windows[number][1], "a sheet out of its window"
    for time, (_, closes) in zip(auction.closed_at(), windows.values()):
        assert time >= closes + 10, "a round closed early"


def check_moment(auction: ConductedAuction) -> None:
    """At any moment, what is announced or published has happened."""
    closed = last_closed(auction.operator().page("/v1/status"))
    public, windows = auction.conductor.context.public, auction.context().plan_file.read().windows
    for announcement in auction.announcements():
        kind, _, rest = announcement["key"].partition("-")
        if kind == "closed":
            results = public.results(int(rest))
            assert results and results["digest"] in announcement["text"]
        elif kind == "open":
            assert windows[int(rest.split("-")[0])].opened is not None, announcement
    assert public.published() <= closed, "a round is published that is not closed"


def check_curtain(auction: ConductedAuction, publish: int) -> None:
    """No round was published before its curtain lifted."""
    for number in range(1, auction.rounds + 1):
        _, closes = auction.window(number)
        published = auction.page(f"public/rounds/{number}.json")["published"]
        assert published >= utc(BEGIN + closes + publish), "published before the curtain lifted"


def audit_if_killed(
    program: pathlib.Path, step: int, with_the_machine: bool, publish: int = 0
) -> list[str]:
    """The audit of the auction whose conductor is killed before one step.

    The machine is back after 20 seconds, and the conductor at once or after three.
    """
    with conducted(program, WINDOWS, missed=100, publish=publish) as auction:

        def after_kill() -> None:
            auction.disk.kill_at = 0
            check_moment(auction)
            if with_the_machine:
                auction.kill_server()
                auction.disk.lose_power()
                auction.clock.restart(20)
                auction.begin_server()
            elif step % 2:
                auction.clock.sleep(3)

        auction.disk.count, auction.disk.kill_at = 0, step
        auction.play(after_kill=after_kill, step=15)
        check_gate(auction)
        check_curtain(auction, publish)
        return check(auction)


def audit_if_killed_again_and_again(program: pathlib.Path) -> tuple[list[str], int]:
    """The audit of the auction in which each conductor is killed one step later than the last.

    After 20 steps, which is what it takes to store a round, it begins with the first again. Also
    returns how often it was killed.
    """
    kills = 0
    with conducted(program, WINDOWS, missed=100) as auction:

        def after_kill() -> None:
            nonlocal kills
            kills += 1
            auction.disk.count, auction.disk.kill_at = 0, kills % 20 + 1

        auction.disk.count, auction.disk.kill_at = 0, 1
        auction.play(after_kill=after_kill, step=5)
        check_gate(auction)
        return check(auction), kills
