"""A day of 12 rounds in which the conductor's process is killed at random moments, by SIGKILL."""
import mmap
import os
import pathlib
import random
import signal
import struct
import time

from auction.conductor.report import State
from tests.conductor.finished import check
from tests.lib.clock import BEGIN
from tests.lib.conducted import ConductedAuction, Times, conducted

ROUNDS = 12
WINDOWS: Times = [(30 + 70 * number, 60 + 70 * number) for number in range(ROUNDS)]
MOST_MILLISECONDS = 200.0  # of a processor's time that a conductor lives; a look takes up to 60


class SharedClock:
    """A clock that all processes of a test share. Time passes only if one of them sleeps."""

    def __init__(self) -> None:
        self.memory = mmap.mmap(-1, 8)
        struct.pack_into("d", self.memory, 0, 0.0)

    def wall(self) -> float:
        return BEGIN + self.passed()

    def passed(self) -> float:
        return struct.unpack_from("d", self.memory, 0)[0]

    def boot(self) -> str:
        return "boot"

    def sleep(self, seconds: float) -> None:
        """One write, so that a kill cannot tear the two times apart."""
        struct.pack_into("d", self.memory, 0, self.passed() + seconds)


def live(auction: ConductedAuction, parent: int) -> None:
    """What a conductor's process does until it is killed or the auction has ended.

    The bidders send their sheets between its looks.
    """
    auction.conductor = auction.fresh()
    while auction.conductor.look().state is not State.ENDED and os.getppid() == parent:
        if auction.is_open():
            before = auction.clock.wall() - BEGIN
            opens, closes = auction.window(auction.conductor.number or 0)
            if not opens <= before < closes:
                (auction.folder / "early").touch()
            auction.bid()
        auction.clock.sleep(1)


def wait_for_work(child: int, seconds: float) -> None:
    """Waits until a process has used a processor for some time, or has ended."""
    clock = ~child << 3 | 2  # as clock_getcpuclockid numbers it
    while not os.waitid(os.P_PID, child, os.WEXITED | os.WNOHANG | os.WNOWAIT):
        if time.clock_gettime(clock) >= seconds:
            return
        time.sleep(0.0005)


def lived(auction: ConductedAuction, milliseconds: float) -> bool:
    """Starts a conductor and kills it after some time.

    Returns whether it ended by itself, because the auction has ended.
    """
    parent, child = os.getpid(), os.fork()
    if child == 0:
        try:
            live(auction, parent)
            os._exit(0)
        finally:
            os._exit(1)
    wait_for_work(child, milliseconds / 1000)
    os.kill(child, signal.SIGKILL)
    _, status = os.waitpid(child, 0)
    assert os.WIFSIGNALED(status) or os.WEXITSTATUS(status) == 0, "a conductor failed"
    return os.WIFEXITED(status)


def kills_of_a_day(program: pathlib.Path, chance: random.Random) -> int:
    """Plays a day. Returns how many conductors were killed in it."""
    kills = 0
    with conducted(program, WINDOWS, rounds=ROUNDS, clock=SharedClock(), missed=100) as auction:
        while not lived(auction, chance.uniform(0, MOST_MILLISECONDS)):
            kills += 1
            auction.clock.sleep(chance.choice((0, 0, 1, 3)))
        check(auction)
        assert not (auction.folder / "early").exists(), "the gate was open out of a window"
    return kills
