"""Leaves out the run under a live systemd, which needs minutes and a mirror of Debian."""
import pathlib

import pytest


def pytest_ignore_collect(collection_path: pathlib.Path, config: pytest.Config) -> bool | None:
    """Leaves test_live.py out without `--debian FOLDER`."""
    is_asked_for = config.getoption("--debian") is not None
    return True if collection_path.name == "test_live.py" and not is_asked_for else None
