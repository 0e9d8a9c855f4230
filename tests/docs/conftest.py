"""Shells in which documents are typed."""
import pathlib
from collections.abc import Callable, Iterator

import pytest

from tests.docs.shell import Shell


@pytest.fixture
def shell(
    program: pathlib.Path, openapi: pathlib.Path, open_folder: pathlib.Path
) -> Iterator[Callable[[], Shell]]:
    """Starts shells, each in a folder of its own. All end with the test."""
    started: list[Shell] = []

    def start() -> Shell:
        started.append(Shell(open_folder / f"shell{len(started)}", program, openapi))
        return started[-1]

    yield start
    for one in started:
        one.stop()
