"""Fixtures of the tests with live bidders."""
import contextlib
import socket
from collections.abc import Callable, Iterator
from pathlib import Path

import pytest

from tests.lib.paths import EXAMPLES
from tests.lib.server import Server
from tests.live.bidders import Bidder
from tests.live.spoiler import Spoiler, spoiler_before


@pytest.fixture
def one_product(server: Callable[..., Server]) -> Callable[..., Server]:
    """Starts servers of examples/one_product.json."""
    return lambda **options: server(EXAMPLES / "one_product.json", **options).ready()


@pytest.fixture
def limits(tmp_path: Path) -> Path:
    """The file of a bidder that wants two blocks up to 1,000 dollars."""
    file = tmp_path / "limits.json"
    file.write_text('{"A": [1000, 1000]}')
    return file


@pytest.fixture
def bidder() -> Iterator[Callable[..., Bidder]]:
    """Starts bidders, which end with the test."""
    with contextlib.ExitStack() as started:

        def start(url: str | int, *words: object, **options: object) -> Bidder:
            """Starts a bidder at a URL, or at a port of this machine."""
            address = f"http://127.0.0.1:{url}" if isinstance(url, int) else url
            one = Bidder(address, *words, **options)  # type: ignore[arg-type]
            started.callback(one.kill)
            return one

        yield start


@pytest.fixture
def spoiler() -> Iterator[Callable[[int], Spoiler]]:
    """Starts proxies that spoil replies, each in front of a port. They end with the test."""
    with contextlib.ExitStack() as started:
        yield lambda port: started.enter_context(spoiler_before(port))


@pytest.fixture
def elsewhere() -> Iterator[str]:
    """The URL of another address, which no request may reach."""
    with socket.create_server(("127.0.0.1", 0)) as other:
        yield f"http://127.0.0.1:{other.getsockname()[1]}/"
        other.setblocking(False)
        with pytest.raises(BlockingIOError):
            other.accept()
