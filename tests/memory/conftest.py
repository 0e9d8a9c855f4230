"""The library that refuses allocations of the program."""
import pathlib
import subprocess

import pytest

from tests.memory.shim import Shim


@pytest.fixture(scope="session")
def shim(program: pathlib.Path, tmp_path_factory: pytest.TempPathFactory) -> Shim:
    """The library, compiled from refuse.c."""
    file = tmp_path_factory.mktemp("refuse") / "refuse.so"
    source = pathlib.Path(__file__).with_name("refuse.c")
    words = ["cc", "-O1", "-shared", "-fPIC", "-o", file, source, "-ldl"]
    subprocess.run([*map(str, words)], check=True, timeout=60)
    return Shim(program, file)
