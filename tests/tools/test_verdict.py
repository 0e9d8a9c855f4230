"""The gate's last lines, by what its parts printed and how they ended."""
import json

import pytest

from tools.verdict import (
    MOST_AGAIN,
    Again,
    Counts,
    again,
    counts_of_proofs,
    counts_of_trials,
    failures_in,
    is_worth_again,
    verdict,
)

pytestmark = pytest.mark.early

PASSED = Counts(passed=5)
SKIPPED = Counts(passed=5, skipped=2, needed=("chromium",))
FAILED = Counts(passed=4, failed=1)
NOTHING = {"passed": 0, "failed": 0, "skipped": 0, "needed": []}


@pytest.mark.parametrize(
    ("lines", "status", "wanted"),
    [
        pytest.param(["rt: ok", "7 passed, 0 failed"], 0, Counts(7), id="all-proved"),
        pytest.param(["6 passed, 1 failed"], 1, Counts(6, 1), id="a-failed-proof"),
        pytest.param(["7 passed, 0 failed"], 1, Counts(7, 1), id="another-status-than-its-line"),
        pytest.param(["rt: clock_auction proved"], -9, Counts(0, 1), id="killed"),
        pytest.param([], 127, Counts(0, 1), id="not-there"),
        pytest.param(["BAD EDIT a.edit", "7 passed, 0 failed"], 0, Counts(7, 1), id="a-bad-edit"),
    ],
)
def test_proofs_count_as_rt_ci_counts_them(lines: list[str], status: int, wanted: Counts) -> None:
    assert counts_of_proofs(lines, status) == wanted


@pytest.mark.parametrize(
    ("summary", "status", "wanted"),
    [
        pytest.param({"passed": 5}, 0, PASSED, id="all-passed"),
        pytest.param({"passed": 4, "failed": 1}, 1, FAILED, id="a-failed-test"),
        pytest.param(
            {"passed": 5, "skipped": 2, "needed": ["chromium"]}, 1, SKIPPED, id="skipped-tests"
        ),
        pytest.param({"passed": 5}, 3, Counts(5, 1), id="another-status-than-its-counts"),
        pytest.param({"passed": 4, "failed": 1}, 3, Counts(4, 2), id="interrupted-after-a-failure"),
        pytest.param({}, 5, Counts(0, 1), id="no-tests"),
        pytest.param(None, -9, Counts(0, 1), id="killed"),
    ],
)
def test_trials_count_as_their_summary_counts_them(
    summary: dict[str, object] | None, status: int, wanted: Counts
) -> None:
    text = None if summary is None else json.dumps({**NOTHING, **summary})
    assert counts_of_trials(text, status) == wanted


@pytest.mark.parametrize(
    ("proofs", "trials", "allow_skips", "line", "status"),
    [
        pytest.param(PASSED, [PASSED], False, "10 passed, 0 failed, 0 skipped", 0, id="passes"),
        pytest.param(PASSED, [FAILED], False, "9 passed, 1 failed, 0 skipped", 1, id="a-trial"),
        pytest.param(FAILED, [PASSED], False, "9 passed, 1 failed, 0 skipped", 1, id="a-proof"),
        pytest.param(PASSED, [SKIPPED], False, "10 passed, 0 failed, 2 skipped", 1, id="skips"),
        pytest.param(PASSED, [SKIPPED], True, "10 passed, 0 failed, 2 skipped", 0, id="allowed"),
        pytest.param(FAILED, [SKIPPED], True, "9 passed, 1 failed, 2 skipped", 1, id="not-all"),
    ],
)
def test_last_line_counts_proofs_and_trials_together(
    proofs: Counts, trials: list[Counts], allow_skips: bool, line: str, status: int
) -> None:
    lines, found = verdict(proofs, trials, allow_skips)
    assert (lines[-1], found) == (line, status)


def test_line_before_the_last_names_what_skipped_tests_need() -> None:
    lines, _ = verdict(PASSED, [SKIPPED, PASSED], True)
    wanted = "rt: 5 passed, 0 failed, trials: 10 passed, 0 failed, 2 skipped (chromium)"
    assert lines[0] == wanted


# ---- Failed tests, once more


def summary_of(passed: int, failures: list[str], skipped: int = 0) -> str:
    """The summary of a run of pytest."""
    counts = {"passed": passed, "failed": len(failures), "skipped": skipped}
    return json.dumps({**NOTHING, **counts, "failures": failures})


def test_failures_are_those_of_all_runs() -> None:
    assert failures_in([summary_of(3, ["b"]), None, summary_of(1, ["a"])]) == ("b", "a")


@pytest.mark.parametrize(
    ("count", "wanted"), [(0, False), (1, True), (MOST_AGAIN, True), (MOST_AGAIN + 1, False)]
)
def test_failed_tests_of_some_files_run_once_more_and_of_many_do_not(
    count: int, wanted: bool
) -> None:
    assert is_worth_again([f"tests/test_{n}.py::test" for n in range(count)]) == wanted


def test_all_failed_tests_of_a_file_run_once_more() -> None:
    assert is_worth_again([f"tests/test_day.py::test_{n}" for n in range(50)])


@pytest.mark.parametrize(
    ("summary", "passed"),
    [
        pytest.param(summary_of(2, []), ("a", "b"), id="both-pass"),
        pytest.param(summary_of(1, ["a"]), ("b",), id="one-fails-twice"),
        pytest.param(summary_of(0, ["a", "b"]), (), id="both-fail-twice"),
        pytest.param(summary_of(1, []), (), id="one-was-not-run"),
        pytest.param(summary_of(1, ["a"], 1), (), id="one-was-skipped"),
        pytest.param(None, (), id="killed"),
    ],
)
def test_only_what_ran_by_itself_and_passed_has_passed(
    summary: str | None, passed: tuple[str, ...]
) -> None:
    assert again(["a", "b"], summary) == Again(("a", "b"), passed)


def test_a_test_that_passes_by_itself_is_counted_as_passed_and_named() -> None:
    repeated = Again(("a", "b"), ("b",))
    assert repeated.applied(Counts(7, 3, 1)) == Counts(8, 2, 1)
    assert repeated.lines() == ["failed by itself: a", "passed by itself: b"]
