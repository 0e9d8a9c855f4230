"""What the gate's parts come to: pure functions over what they printed and how they ended."""
import dataclasses
import json
import re
from collections.abc import Iterable, Sequence

BUILT = re.compile(r"rt: clock_auction (proved|is kept)")
ENDING = re.compile(r"(\d+) passed, (\d+) failed")
BAD_EDIT = "BAD EDIT"
ENDED = (0, 1)  # pytest's statuses of a run that came to its end
MOST_AGAIN = 6  # of some 200 files of tests


@dataclasses.dataclass(frozen=True)
class Counts:
    """How much passed, failed, and was skipped, and what the skipped tests need."""

    passed: int = 0
    failed: int = 0
    skipped: int = 0
    needed: tuple[str, ...] = ()

    def words(self) -> str:
        """The counts as a line has them."""
        needed = f" ({', '.join(self.needed)})" if self.needed else ""
        return f"{self.passed} passed, {self.failed} failed, {self.skipped} skipped{needed}"


def total(parts: Iterable[Counts]) -> Counts:
    """The sum of some counts."""
    rows = list(parts)
    return Counts(
        sum(row.passed for row in rows),
        sum(row.failed for row in rows),
        sum(row.skipped for row in rows),
        tuple(sorted({name for row in rows for name in row.needed})),
    )


def at_least_one_failure(counts: Counts, status: int) -> Counts:
    """The counts, with a failure if the part ended with another status than 0 and names none."""
    if status and not counts.failed and not counts.skipped:
        return dataclasses.replace(counts, failed=1)
    return counts


def counts_of_proofs(lines: Sequence[str], status: int) -> Counts:
    """What `rt ci` printed. Without its last line, it was killed, which is one failure.

    `rt ci` passes an edit that does not compile or cannot be read. Here it is a failure.
    """
    ending = ENDING.search(lines[-1]) if lines else None
    if ending is None:
        return Counts(failed=1)
    bad = sum(BAD_EDIT in line for line in lines)
    return at_least_one_failure(Counts(int(ending[1]), int(ending[2]) + bad), status)


def counts_of_trials(summary: str | None, status: int) -> Counts:
    """What the summary of a run of pytest says. Without a summary, the run was killed, which is one
    failure.

    A run of which no test passed, failed, or was skipped ran nothing, which is a failure, too. A
    run that was interrupted has one more failure than its tests, which no second run takes away.
    """
    if summary is None:
        return Counts(failed=1)
    value = json.loads(summary)
    counts = Counts(value["passed"], value["failed"], value["skipped"], tuple(value["needed"]))
    if counts == Counts():
        return Counts(failed=1)
    if status not in ENDED:
        return dataclasses.replace(counts, failed=counts.failed + 1)
    return at_least_one_failure(counts, status)


@dataclasses.dataclass(frozen=True)
class Again:
    """What a run of failed tests by themselves showed: which of them passed then."""

    failures: tuple[str, ...]
    passed: tuple[str, ...] = ()

    def applied(self, counts: Counts) -> Counts:
        """The counts of all tests, in which a test that passed by itself has passed."""
        return dataclasses.replace(
            counts,
            passed=counts.passed + len(self.passed),
            failed=counts.failed - len(self.passed),
        )

    def lines(self) -> list[str]:
        """Names each test that failed, and says how it ended by itself."""
        return [
            f"{'passed' if name in self.passed else 'failed'} by itself: {name}"
            for name in self.failures
        ]


def failures_in(summaries: Iterable[str | None]) -> tuple[str, ...]:
    """The tests that failed, by the summaries of runs of pytest."""
    return tuple(
        name for text in summaries if text is not None for name in json.loads(text)["failures"]
    )


def is_worth_again(failures: Sequence[str]) -> bool:
    """Whether failed tests run once more by themselves: if they are of few files.

    A busy machine makes a few tests fail, which wait for real time. More is a fault. All tests of a
    file may fail at once, if they share one auction.
    """
    return 0 < len({name.split("::")[0] for name in failures}) <= MOST_AGAIN


def again(failures: Sequence[str], summary: str | None) -> Again:
    """What the second run showed, by its summary. Without one it was killed, and none passed.

    A test that was not run, or was skipped, did not pass.
    """
    if summary is None:
        return Again(tuple(failures))
    value = json.loads(summary)
    failed = value["failures"]
    if value["passed"] + len(failed) != len(failures) or value["skipped"]:
        return Again(tuple(failures))
    return Again(tuple(failures), tuple(name for name in failures if name not in failed))


def verdict(proofs: Counts, trials: Sequence[Counts], allow_skips: bool) -> tuple[list[str], int]:
    """The last two lines of the gate, and its exit status."""
    tried = total(trials)
    whole = total([proofs, tried])
    lines = [
        f"rt: {proofs.passed} passed, {proofs.failed} failed, trials: {tried.words()}",
        f"{whole.passed} passed, {whole.failed} failed, {whole.skipped} skipped",
    ]
    fails = whole.failed or (whole.skipped and not allow_skips)
    return lines, 1 if fails else 0
