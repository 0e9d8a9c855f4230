"""Practices in a clone of the repository, as someone runs them who has just cloned it."""
import pathlib
import subprocess
from collections.abc import Callable, Iterator

import pytest

from tests.browser.conftest import first_browser, x  # noqa: F401
from tests.lib.paths import TOP
from tests.practice.hosting import Small
from tests.practice.practice import Practice

Start = Callable[..., Practice]


@pytest.fixture(scope="session")
def clone(tmp_path_factory: pytest.TempPathFactory) -> pathlib.Path:
    """A clone of this repository."""
    folder = tmp_path_factory.mktemp("practice") / "clone"
    subprocess.run(["git", "clone", "-q", TOP, folder], check=True, timeout=120)
    return folder


@pytest.fixture(scope="module")
def start(clone: pathlib.Path, program: pathlib.Path) -> Iterator[Start]:
    """Starts practices. All end with the module."""
    started: list[Practice] = []

    def begin(folder: pathlib.Path, *words: str) -> Practice:
        started.append(Practice(clone, folder, "--program", str(program), *words))
        return started[-1]

    yield begin
    for practice in started:
        practice.stop()


@pytest.fixture
def small(program: pathlib.Path, tmp_path: pathlib.Path) -> Iterator[Small]:
    small = Small(tmp_path, program, 2)
    yield small
    small.stop()
