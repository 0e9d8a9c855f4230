"""An auction that is ready, with a network and mounts of its own."""
import contextlib
import pathlib
import shutil
import tempfile
from collections.abc import Iterator

import pytest

from tests.lib.namespaces import own_network
from tests.ready.auction import ReadyAuction, environment_of


@pytest.fixture(scope="module")
def ready(
    program: pathlib.Path, tmp_path_factory: pytest.TempPathFactory
) -> Iterator[ReadyAuction]:
    """An auction that is ready. nginx's workers can read its folder, since its parents allow it."""
    with contextlib.ExitStack() as stack:
        try:
            stack.enter_context(own_network(with_mounts=True))
        except PermissionError:
            pytest.skip("needs namespaces")
        folder = pathlib.Path(tempfile.mkdtemp(prefix="ready-"))
        stack.callback(shutil.rmtree, folder, ignore_errors=True)
        tools = tmp_path_factory.mktemp("tools")
        patch = stack.enter_context(pytest.MonkeyPatch.context())
        for name, value in environment_of(folder, tools).items():
            patch.setenv(name, value)
        auction = ReadyAuction(program, folder, tools)
        stack.callback(auction.stop)
        yield auction
