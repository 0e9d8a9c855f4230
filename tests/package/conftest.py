"""The package, built from this checkout, and what is in it."""
import dataclasses
import os
import pathlib
import subprocess

import pytest

from tests.lib.paths import TOP

# A program for tests that run before the real one is built. Like it, it prints help on standard
# error, with status 2.
STAND_IN = """#!/bin/sh
[ "$1" = --version ] && { echo 'clock_auction 0.1.0' >&2; exit 2; }
echo 'A stand-in for the program' >&2
exit 2
"""


@dataclasses.dataclass(frozen=True)
class Built:
    """A package, its program, and the folder in which its files are extracted."""

    package: pathlib.Path
    program: pathlib.Path
    root: pathlib.Path
    control: pathlib.Path


def pytest_ignore_collect(collection_path: pathlib.Path, config: pytest.Config) -> bool | None:
    """Leaves test_live.py out without `--debian FOLDER`."""
    is_asked_for = config.getoption("--debian") is not None
    return True if collection_path.name == "test_live.py" and not is_asked_for else None


def build(out: pathlib.Path, program: pathlib.Path, umask: int, **environment: str) -> pathlib.Path:
    """Builds the package with an umask and an environment."""
    subprocess.run(
        ["/usr/bin/python3", TOP / "tools/package", out, "--program", program],
        check=True,
        capture_output=True,
        timeout=480,
        umask=umask,
        env={**os.environ, **environment},
    )
    (made,) = out.glob("*.deb")
    return made


@pytest.fixture(scope="session")
def some_program(
    request: pytest.FixtureRequest, tmp_path_factory: pytest.TempPathFactory
) -> pathlib.Path:
    """The built program, or a stand-in if there is none yet."""
    built: pathlib.Path = request.config.getoption("--program").absolute()
    if built.is_file():
        return built
    made = tmp_path_factory.mktemp("stand-in") / "clock_auction"
    made.write_text(STAND_IN)
    made.chmod(0o755)
    return made


@pytest.fixture(scope="session")
def built(some_program: pathlib.Path, tmp_path_factory: pytest.TempPathFactory) -> Built:
    """The package. Tests only read it."""
    folder = tmp_path_factory.mktemp("package")
    package = build(folder / "out", some_program, 0o022)
    root, control = folder / "root", folder / "control"
    subprocess.run(["dpkg-deb", "-x", package, root], check=True)
    subprocess.run(["dpkg-deb", "-e", package, control], check=True)
    return Built(package, some_program, root, control)
