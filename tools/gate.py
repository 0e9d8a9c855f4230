"""The gate: repeats all proofs, must-fail edits, and tests. Exit status 0 if all pass.

    bash .ci/run [--allow-skips]

`rt ci` repeats every proof, the must-fail edits of the crates, and the tests in Rattle, and builds
the program with two compilers. During its first proofs, the tests run that need no built program
(the marker `early`): they read sources, documents, and tools. The other tests begin when the
program is proved and built, next to the last proofs and edits.

A few tests wait for real time, and fail on a machine that is busy enough. So failed tests, if they
are few, run once more, one after the other, when all else has ended. The gate names each of them,
and how it ended. A test that fails twice fails the gate.

The last lines have the program's SHA-256, the seconds at which each crate was proved and each run
of tests ended, the machine's pace, and the counts. A test that is skipped, because a package is
missing, fails the gate unless it is called with --allow-skips.
"""
import argparse
import atexit
import hashlib
import json
import os
import pathlib
import re
import signal
import statistics
import subprocess
import sys
import tempfile
import threading
import time
from collections.abc import Sequence

TOP = pathlib.Path(__file__).resolve().parent.parent
sys.path.insert(0, str(TOP))

from tools.verdict import (
    BUILT,
    Again,
    Counts,
    again,
    counts_of_proofs,
    counts_of_trials,
    failures_in,
    is_worth_again,
    total,
    verdict,
)

PROGRAM = TOP / "crates/clock_auction/out/clock_auction"
PYTHON = "/usr/bin/python3"  # the one that has Debian's packages
PROCESSORS = len(os.sched_getaffinity(0))
PROVED = re.compile(r"rt: (clock_[a-z_]+)(: its (tests) are)? proved$")
PACE_PERIOD = 60.0  # seconds
BEGAN = time.monotonic()


def second() -> int:
    """The seconds since the gate began."""
    return int(time.monotonic() - BEGAN)


def started(command: list[str], **options: object) -> subprocess.Popen[str]:
    """Starts a command in a process group of its own, which ends with the gate."""
    child: subprocess.Popen[str] = subprocess.Popen(  # type: ignore[call-overload]
        command, cwd=TOP, stdin=subprocess.DEVNULL, text=True, start_new_session=True, **options
    )
    atexit.register(end, child)
    return child


def end(child: subprocess.Popen[str]) -> None:
    """Ends a command and all that it started."""
    try:
        os.killpg(child.pid, signal.SIGKILL)
    except ProcessLookupError:
        pass


class Proofs:
    """A run of `rt ci`, whose lines are printed as they come."""

    def __init__(self) -> None:
        self.lines: list[str] = []
        self.proved: list[str] = []
        self.is_decided, self.has_ended = threading.Event(), threading.Event()
        self.is_built = False
        # One check for each processor. By default, rt ci delays a large crate until several times
        # the memory of its check is free, and all crates above it wait. The checks have a low
        # priority, so that the tests find a machine that is as good as idle.
        jobs = os.environ.get("RT_JOBS", str(PROCESSORS))
        self.child = started(
            ["nice", "rt", "ci"],
            stdout=subprocess.PIPE,
            stderr=subprocess.STDOUT,
            env={**os.environ, "RT_JOBS": jobs},
        )
        threading.Thread(target=self.read, daemon=True).start()

    def read(self) -> None:
        assert self.child.stdout is not None
        for line in self.child.stdout:
            self.lines.append(line.rstrip("\n"))
            print(f"{second():5d} {self.lines[-1]}", flush=True)
            if found := PROVED.fullmatch(self.lines[-1]):
                self.proved.append(f"{found[1]}{' tests' if found[3] else ''} {second()}")
            if BUILT.search(line):
                self.is_built = True
                self.is_decided.set()
        self.child.wait()
        self.has_ended.set()
        self.is_decided.set()

    def build(self) -> bool:
        """Waits until the program is built, or will not be. Returns whether it is."""
        self.is_decided.wait()
        return self.is_built

    def counts(self) -> Counts:
        self.has_ended.wait()
        return counts_of_proofs(self.lines, self.child.returncode)


class Trials:
    """A run of pytest, whose output is printed when it has ended."""

    def __init__(self, folder: pathlib.Path, name: str, *words: str, priority: int = 0) -> None:
        self.name, self.ended = name, 0
        self.summary, self.output = folder / f"{name}.json", folder / f"{name}.txt"
        command = ["nice", "-n", str(priority), PYTHON, "-m", "pytest", "-q", *words]
        with open(self.output, "w", encoding="utf-8") as output:
            self.child = started(
                [*command, "--summary", str(self.summary)], stdout=output, stderr=output
            )
        self.waiting = threading.Thread(target=self.wait, daemon=True)
        self.waiting.start()

    def wait(self) -> None:
        """Notes when the run has ended."""
        self.child.wait()
        self.ended = second()

    def counts(self) -> Counts:
        self.waiting.join()
        status = self.child.returncode
        print(f"---- tests: {self.name}, ended at second {self.ended}")
        print(self.output.read_text(encoding="utf-8"), flush=True)
        return counts_of_trials(self.summary_text(), status)

    def summary_text(self) -> str | None:
        """The summary, or None if the run was killed."""
        return self.summary.read_text() if self.summary.exists() else None


def run_again(folder: pathlib.Path, runs: Sequence[Trials], words: Sequence[str]) -> Again:
    """Runs the failed tests of these runs once more, by themselves, if they are few."""
    failures = failures_in(run.summary_text() for run in runs)
    if not is_worth_again(failures):
        return Again(())
    names = folder / "failures.json"
    names.write_text(json.dumps(failures))
    second_run = Trials(folder, "again", f"--only={names}", *words)
    second_run.counts()
    return again(failures, second_run.summary_text())


def pace() -> int:
    """The milliseconds that md5sum takes for 256 MiB: how fast and how busy the machine is."""
    began = time.monotonic()
    subprocess.run("head -c 256M /dev/zero | md5sum > /dev/null", shell=True, check=True)
    return int((time.monotonic() - began) * 1000)


def note_paces(paces: list[int]) -> None:
    """Measures the machine's pace each minute, for good."""
    while True:
        time.sleep(PACE_PERIOD)
        paces.append(pace())


def begun(folder: pathlib.Path, proofs: Proofs, flags: Sequence[str]) -> list[Trials]:
    """Starts the tests: some at once, the others when the program is built."""
    spread = ["--dist", "loadscope"]
    runs = [Trials(folder, "early", "-m", "early", "-n", "2", *spread, *flags, priority=10)]
    if proofs.build():
        words = ["-m", "not early", "--full", "-n", str(PROCESSORS), *spread, *flags]
        runs.append(Trials(folder, "program", *words))
    return runs


def tried(folder: pathlib.Path, proofs: Proofs, flags: Sequence[str]) -> tuple[Counts, Counts]:
    """What the proofs come to, and the tests. Waits until all have ended."""
    runs = begun(folder, proofs, flags)
    trials = [run.counts() for run in reversed(runs)]
    if proofs.is_built:
        print(f"the program's sha256: {hashlib.sha256(PROGRAM.read_bytes()).hexdigest()}")
    else:
        trials.append(Counts(failed=1))
    proved = proofs.counts()
    ended = [f"tests {run.name} {run.ended}" for run in runs]
    print(f"seconds: {', '.join([*proofs.proved, *ended])}")
    repeated = run_again(folder, runs, ["--full", *flags])
    print("".join(f"{line}\n" for line in repeated.lines()), end="")
    return proved, repeated.applied(total(trials))


def main() -> int:
    parser = argparse.ArgumentParser(prog=".ci/run", description=__doc__)
    parser.formatter_class = argparse.RawDescriptionHelpFormatter
    parser.add_argument(
        "--allow-skips", action="store_true", help="a skipped test does not fail the gate"
    )
    given = parser.parse_args()
    signal.signal(signal.SIGTERM, lambda *_: sys.exit(1))
    alone, paces = pace(), list[int]()
    threading.Thread(target=note_paces, args=(paces,), daemon=True).start()
    with tempfile.TemporaryDirectory(prefix="gate-") as name:
        proofs = Proofs()
        subprocess.run([TOP / "tools/packages"], check=False)
        flags = ["--allow-skips"] if given.allow_skips else []
        proved, trials = tried(pathlib.Path(name), proofs, flags)
    median = int(statistics.median(paces)) if paces else "-"
    print(
        f"pace: md5sum of 256 MiB took {alone} ms before, and during the run {median}, "
        f"the median of {len(paces)}"
    )
    lines, status = verdict(proved, [trials], given.allow_skips)
    print("\n".join(lines), flush=True)
    return status


if __name__ == "__main__":
    sys.exit(main())
