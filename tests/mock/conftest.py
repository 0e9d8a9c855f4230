"""Folders of a real auction and of its mock auction, as `auction init` makes them."""
import pathlib
import shutil
import tempfile
from collections.abc import Iterator
from typing import NamedTuple

import pytest

from tests.lib.paths import EXAMPLES, auction

SETUP = EXAMPLES / "two_products.json"
WORKER = "www-data"  # a user of Debian, with a group of the same name


class Pair(NamedTuple):
    """Two folders of one set-up."""

    real: pathlib.Path
    mock: pathlib.Path


@pytest.fixture(scope="module")
def made(openapi: pathlib.Path) -> Iterator[Pair]:
    """Both folders. Tests only read them."""
    with tempfile.TemporaryDirectory(prefix="mock-") as name:
        pair = Pair(pathlib.Path(name, "real"), pathlib.Path(name, "mock"))
        for folder, words in ((pair.real, ()), (pair.mock, ("--mock",))):
            done = auction("init", folder, "--setup", SETUP, "--user", WORKER, *words)
            assert done.returncode == 0, done.stderr
        yield pair


@pytest.fixture
def pair(made: Pair, tmp_path: pathlib.Path) -> Pair:
    """Copies of both folders, which a test may change."""
    return Pair(*(pathlib.Path(shutil.copytree(one, tmp_path / one.name)) for one in made))
