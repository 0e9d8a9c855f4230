"""The gate in a small repository of its own, with a stand-in for `rt` and one file of tests."""
import os
import pathlib
import shutil
import subprocess
import sys

import pytest

from tests.lib.paths import CHANGING, TOP

pytestmark = pytest.mark.early

PROOFS = """#!/bin/sh
mkdir -p crates/clock_auction/out
echo program > crates/clock_auction/out/clock_auction
echo "rt: clock_auction proved"
{more}
echo "3 passed, 0 failed"
"""
EARLY = """import pytest


@pytest.mark.early
def test_early():
    pass
"""
TESTS = {
    "passes": "def test_one(): pass",
    "fails": "def test_one(): assert 1 == 2\n\n\ndef test_two(): pass",
    "fails_once": "import pathlib\n\n\ndef test_one():\n    seen = pathlib.Path('seen')\n"
    "    if not seen.exists():\n        seen.touch()\n        assert 1 == 2",
    "needs": 'import pytest\n\n\n@pytest.mark.needs("no-such-command")\ndef test_one(): pass',
    "is_expected_to_fail": "import pytest\n\n\n@pytest.mark.xfail\ndef test_one(): assert False",
    "is_killed": "import os\nimport signal\n\n\n"
    "def test_one(): os.killpg(os.getpgrp(), signal.SIGKILL)",
}


class Repository:
    """A copy of the gate, with other proofs and tests."""

    def __init__(self, folder: pathlib.Path) -> None:
        self.folder = folder
        for name in ("auction", "tools", "tests/lib", ".ci"):
            shutil.copytree(TOP / name, folder / name, ignore=CHANGING)
        for name in ("pytest.ini", "tests/conftest.py"):
            shutil.copy(TOP / name, folder / name)
        self.write("tools/packages", "#!/bin/sh")
        self.write("tests/test_early.py", EARLY)

    def write(self, name: str, text: str) -> None:
        path = self.folder / name
        path.parent.mkdir(parents=True, exist_ok=True)
        path.write_text(text + "\n")
        path.chmod(0o755)

    def run(self, tests: str, *words: str, more: str = "") -> tuple[list[str], int]:
        """Runs the gate with these tests. Returns its last two lines and its status."""
        lines, status = self.output(tests, *words, more=more)
        return lines[-2:], status

    def output(self, tests: str, *words: str, more: str = "") -> tuple[list[str], int]:
        """Runs the gate with these tests. Returns its lines and its status."""
        self.write("tests/test_sample.py", TESTS[tests])
        self.write("bin/rt", PROOFS.replace("{more}", more))
        path = f"{self.folder / 'bin'}:{os.environ['PATH']}"
        ran = subprocess.run(
            [sys.executable, "tools/gate.py", *words],
            cwd=self.folder,
            env={**os.environ, "PATH": path},
            capture_output=True,
            text=True,
            timeout=120,
        )
        return ran.stdout.splitlines(), ran.returncode


@pytest.fixture
def repository(tmp_path: pathlib.Path) -> Repository:
    return Repository(tmp_path / "repository")


def test_passes_if_proofs_and_tests_pass(repository: Repository) -> None:
    lines, status = repository.run("passes")
    assert lines == [
        "rt: 3 passed, 0 failed, trials: 2 passed, 0 failed, 0 skipped",
        "5 passed, 0 failed, 0 skipped",
    ]
    assert status == 0


def test_fails_if_a_test_fails(repository: Repository) -> None:
    lines, status = repository.run("fails")
    assert (lines[-1], status) == ("5 passed, 1 failed, 0 skipped", 1)


def test_names_a_test_that_fails_twice(repository: Repository) -> None:
    lines, _ = repository.output("fails")
    assert "failed by itself: tests/test_sample.py::test_one" in lines


def test_passes_and_names_a_test_that_passes_by_itself(repository: Repository) -> None:
    lines, status = repository.output("fails_once")
    assert "passed by itself: tests/test_sample.py::test_one" in lines
    assert (lines[-1], status) == ("5 passed, 0 failed, 0 skipped", 0)


def test_fails_if_a_command_is_missing(repository: Repository) -> None:
    lines, status = repository.run("needs")
    assert lines == [
        "rt: 3 passed, 0 failed, trials: 1 passed, 0 failed, 1 skipped (no-such-command)",
        "4 passed, 0 failed, 1 skipped",
    ]
    assert status == 1


def test_fails_if_a_test_is_expected_to_fail(repository: Repository) -> None:
    lines, status = repository.run("is_expected_to_fail")
    assert (lines[-1], status) == ("4 passed, 0 failed, 1 skipped", 1)


def test_passes_if_skips_are_allowed(repository: Repository) -> None:
    lines, status = repository.run("needs", "--allow-skips")
    assert (lines[-1], status) == ("4 passed, 0 failed, 1 skipped", 0)


def test_fails_if_the_tests_are_killed(repository: Repository) -> None:
    lines, status = repository.run("is_killed")
    assert (lines[-1], status) == ("4 passed, 1 failed, 0 skipped", 1)


def test_fails_if_the_proofs_are_killed(repository: Repository) -> None:
    lines, status = repository.run("passes", more="kill -KILL $$")
    assert (lines[-1], status) == ("2 passed, 1 failed, 0 skipped", 1)


def test_fails_if_the_program_is_not_built(repository: Repository) -> None:
    repository.write("bin/rt", "")
    lines, status = repository.run("passes", more="exit 1")
    assert status == 1
    assert " 0 failed" not in lines[-1]
