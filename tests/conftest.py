"""Fixtures of all tests, what they need, and the line that counts them.

A test that lacks a command or a module is skipped. The last lines name what was missing, and
`--summary FILE` writes the counts and the failed tests for the gate. Without `--allow-skips` a
skipped test fails the run. `--only FILE` runs the tests whose names a file has.
"""
import importlib.util
import json
import os
import pathlib
import shutil
import subprocess
import tempfile
from collections import Counter
from collections.abc import Callable, Iterator
from typing import Any

import pytest

# Before the first import of these modules: a failing `assert` in them shows its values.
pytest.register_assert_rewrite("tests")

from tests.lib.paths import BUILT, PATHS, TOP
from tests.lib.server import Server
from tests.lib.site import Site


def pytest_addoption(parser: pytest.Parser) -> None:
    parser.addoption(
        "--program", type=pathlib.Path, default=BUILT, help="the program that is tried"
    )
    parser.addoption(
        "--allow-skips", action="store_true", help="a skipped test does not fail the run"
    )
    parser.addoption("--summary", type=pathlib.Path, help="the file that gets the counts, as JSON")
    parser.addoption("--only", type=pathlib.Path, help="a file with the names of the tests to run")
    parser.addoption("--full", action="store_true", help="tests/load plays in full size")
    parser.addoption("--debian", help="the folder of a small Debian, for the units under systemd")


# ---- Which tests run


def pytest_collection_modifyitems(config: pytest.Config, items: list[pytest.Item]) -> None:
    file = config.getoption("--only")
    if file is None:
        return
    names = set(json.loads(file.read_text()))
    config.hook.pytest_deselected(items=[item for item in items if item.nodeid not in names])
    items[:] = [item for item in items if item.nodeid in names]


# ---- What a test needs


def is_there(name: str) -> bool:
    """Whether a command, a Python module, or a Perl module such as A::B is there."""
    if "::" in name:
        return subprocess.run(["perl", f"-M{name}", "-e", "1"], capture_output=True).returncode == 0
    return shutil.which(name, path=PATHS) is not None or importlib.util.find_spec(name) is not None


def pytest_runtest_setup(item: pytest.Item) -> None:
    for mark in item.iter_markers("needs"):
        if absent := [name for name in mark.args if not is_there(name)]:
            pytest.skip(f"needs {', '.join(absent)}")
    if item.get_closest_marker("root") and os.geteuid() != 0:
        pytest.skip("needs root")


# ---- The counts


def reason_of(report: Any) -> str:
    """What a skipped test needs, in one word or some."""
    words = report.longrepr[2] if isinstance(report.longrepr, tuple) else str(report.longrepr)
    return str(words).removeprefix("Skipped: ").removeprefix("needs ")


def counts_of(reporter: Any) -> dict[str, Any]:
    """How many tests passed, failed, and were skipped, and why, and which ones failed.

    A test fails if any part of it does, also what it made ready or took down. A test that is
    expected to fail counts as skipped: nobody may pass the gate by that mark.
    """
    stats = reporter.stats
    failures = {report.nodeid for kind in ("failed", "error") for report in stats.get(kind, [])}
    skipped = Counter(reason_of(report) for report in stats.get("skipped", []))
    skipped.update(f"xfail {report.nodeid}" for report in stats.get("xfailed", []))
    skipped.update(f"xfail {report.nodeid}" for report in stats.get("xpassed", []))
    return {
        "passed": sum(report.nodeid not in failures for report in stats.get("passed", [])),
        "failed": len(failures),
        "failures": sorted(failures),
        "skipped": sum(skipped.values()),
        "needed": sorted(skipped),
    }


def recorded_of(reporter: Any) -> Counter[str]:
    """What the tests recorded as properties, such as explored states, in all."""
    recorded: Counter[str] = Counter()
    for report in reporter.stats.get("passed", []):
        for name, count in report.user_properties:
            recorded[name] += count
    return recorded


@pytest.hookimpl(tryfirst=True)
def pytest_sessionfinish(session: pytest.Session) -> None:
    reporter = session.config.pluginmanager.get_plugin("terminalreporter")
    if reporter is None or hasattr(session.config, "workerinput"):
        return
    counts = counts_of(reporter)
    if (
        counts["skipped"]
        and not session.config.getoption("--allow-skips")
        and not session.exitstatus
    ):
        session.exitstatus = pytest.ExitCode.TESTS_FAILED
    if file := session.config.getoption("--summary"):
        file.write_text(json.dumps(counts) + "\n")


def pytest_terminal_summary(terminalreporter: Any) -> None:
    counts = counts_of(terminalreporter)
    needed = f" ({', '.join(counts['needed'])})" if counts["needed"] else ""
    parts = ", ".join(f"{counts[name]} {name}" for name in ("passed", "failed", "skipped"))
    line = f"trials: {parts}{needed}"
    terminalreporter.write_line(line)
    recorded = sorted(recorded_of(terminalreporter).items())
    if recorded:
        words = ", ".join(f"{count:,} {name}" for name, count in recorded)
        terminalreporter.write_line(f"recorded: {words}")


# ---- Fixtures


@pytest.fixture(scope="session")
def program(request: pytest.FixtureRequest) -> pathlib.Path:
    """The program that is tried."""
    path: pathlib.Path = request.config.getoption("--program").absolute()
    if not path.is_file():
        pytest.fail(
            f"{path} does not exist. Run `rt run` in crates/clock_auction to build the program."
        )
    return path


@pytest.fixture(scope="session")
def openapi() -> pathlib.Path:
    """The description of nginx's port, as it is built: `auction init` installs it."""
    path = TOP / "schemas" / "openapi.json"
    subprocess.run([TOP / "tools/bundle", path], check=True, timeout=60)
    return path


@pytest.fixture
def server(program: pathlib.Path) -> Iterator[Callable[..., Server]]:
    """Starts servers of the program, each on a port of its own. All end with the test."""
    started: list[Server] = []

    def start(*files: Any, **options: Any) -> Server:
        started.append(Server(program, *files, **options))
        return started[-1]

    yield start
    for one in started:
        if one.child.poll() is None:
            one.kill()


@pytest.fixture
def open_folder() -> Iterator[pathlib.Path]:
    """A folder that other users can enter, such as nginx's workers. They cannot enter pytest's."""
    folder = pathlib.Path(tempfile.mkdtemp(prefix="auction-"))
    folder.chmod(0o755)
    yield folder
    shutil.rmtree(folder, ignore_errors=True)


@pytest.fixture
def nginx(program: pathlib.Path, open_folder: pathlib.Path) -> Iterator[Callable[..., Site]]:
    """Starts nginx before a server of a set-up, in a folder. All end with the test."""
    started: list[Site] = []

    def start(setup: object, *, without_program: bool = False, **options: Any) -> Site:
        folder = open_folder / f"site{len(started)}"
        started.append(Site(folder, None if without_program else program, setup, **options))
        return started[-1]

    yield start
    for one in started:
        one.stop()
