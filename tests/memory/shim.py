"""Runs the program with one of its allocations refused."""
import os
import pathlib
import subprocess
from collections.abc import Callable
from concurrent.futures import ThreadPoolExecutor
from typing import Generic, NamedTuple, TypeVar

from tests.lib.waiting import WORKERS

SECONDS = 60

End = tuple[int | str, bytes, bytes]
Done = TypeVar("Done")


class Run(NamedTuple, Generic[Done]):
    """How the program ended, its counts of allocations and of refused ones, and what was done."""

    end: End
    growths: int
    refusals: int
    done: Done


def nothing(_: subprocess.Popen[bytes]) -> None:
    """Does nothing while a program runs."""


class Shim:
    """A library that is preloaded into the program."""

    def __init__(self, program: pathlib.Path, file: pathlib.Path) -> None:
        self.program, self.file = program, file

    def run(
        self,
        words: list[str],
        refused: int,
        between: Callable[[subprocess.Popen[bytes]], Done],
        document: bytes = b"",
    ) -> Run[Done]:
        """Runs the program with one allocation refused. Calls `between` while it runs."""
        counts, writes = os.pipe()
        changes = {"LD_PRELOAD": str(self.file), "REFUSE": str(refused), "REFUSE_TOLD": str(writes)}
        with subprocess.Popen(
            [str(self.program), *words],
            stdin=subprocess.PIPE,
            stdout=subprocess.PIPE,
            stderr=subprocess.PIPE,
            env={**os.environ, **changes},
            pass_fds=[writes],
        ) as child:
            os.close(writes)
            try:
                done = between(child)
                output, error = child.communicate(document, SECONDS)
            except BaseException:
                child.kill()
                raise
        with os.fdopen(counts) as numbers:
            growths, refusals = map(int, numbers.read().split() or (0, 0))
        return Run((child.returncode, output, error), growths, refusals, done)


def refuse_each(
    run: Callable[[int], Run[Done]], is_right: Callable[[Run[Done], Run[Done]], bool]
) -> tuple[Run[Done], list[tuple[int, Run[Done]]]]:
    """Runs something without a refusal, and with each of its allocations refused in turn.

    Returns the run without a refusal, and the wrong ones by number. A run is wrong if not exactly
    one allocation was refused, or if it is not right, compared with the one without a refusal. In
    the last run the number after the last is refused: it must be like the one without a refusal.
    """
    wanted = run(0)
    numbers = range(1, wanted.growths + 2)
    with ThreadPoolExecutor(WORKERS) as threads:
        runs = list(threads.map(run, numbers))
    *refused, last = zip(numbers, runs)
    wrong = [one for one in refused if one[1].refusals != 1 or not is_right(one[1], wanted)]
    is_like = (last[1].end, last[1].refusals, last[1].done) == (wanted.end, 0, wanted.done)
    return wanted, [*wrong, *[last] * (not is_like)]
