"""Waiting for a condition, and work on several processors."""
import multiprocessing
import os
import pathlib
import time
from collections.abc import Callable
from concurrent.futures import ProcessPoolExecutor
from typing import TypeVar

WORKERS = os.cpu_count() or 1
Result = TypeVar("Result")

# The first words of /proc/PID/syscall while a process reads its standard input: the number of
# `read`, on x86-64 and on ARM, and the file.
READS = (["0", "0x0"], ["63", "0x0"])


def wait_for(
    what: str, condition: Callable[[], object], seconds: float, every: float = 0.02
) -> None:
    """Waits until a condition holds. Fails if it does not within these seconds. Looks once in each
    `every` seconds.
    """
    end = time.monotonic() + seconds
    while not condition():
        assert time.monotonic() <= end, f"not within {seconds} s: {what}"
        time.sleep(every)


def wait_for_read(process: int, seconds: float = 60) -> None:
    """Waits until a process sleeps in a read of its standard input."""
    call = pathlib.Path(f"/proc/{process}/syscall")
    wait_for("a read of the standard input", lambda: call.read_text().split()[:2] in READS, seconds)


def in_processes(work: Callable[[int], Result]) -> list[Result]:
    """Calls `work` with each worker's number, each in a process of its own. Returns the results.

    Processes start other programs faster than threads: Python starts one program at a time.
    """
    fork = multiprocessing.get_context("fork")
    with ProcessPoolExecutor(WORKERS, mp_context=fork) as pool:
        return list(pool.map(work, range(WORKERS)))
