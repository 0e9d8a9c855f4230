"""nginx as services/nginx.conf says, before a stand-in for the server that records what reaches it.

Each module has a site of its own. Each test begins with an empty cache, an open gate, and no
requests. It takes bidders and addresses that no other test has, so that no test counts against the
rates of another.
"""
import pathlib
from collections.abc import Callable, Iterator

import pytest

from tests.lib import site as lib
from tests.lib.site import Site
from tests.nginx.recorder import Recorder
from tests.nginx.requests import OPERATOR, UNKNOWN, Bidder
from tests.nginx.running import BIDDERS, SETUP, Running, empty_cache, set_gate

# Lines for nginx.conf that let a test come from any address.
ADDRESS_BY_HEADER = "set_real_ip_from 127.0.0.0/8; real_ip_header x-trial-address;"


@pytest.hookimpl(tryfirst=True)
def pytest_collection_modifyitems(items: list[pytest.Item]) -> None:
    """Each test of this folder needs nginx, and openssl for its certificate, but no program."""
    for item in items:
        if item.path.parent == pathlib.Path(__file__).parent:
            item.add_marker(pytest.mark.needs("nginx", "openssl"))
            item.add_marker(pytest.mark.early)


@pytest.fixture(scope="module")
def running() -> Iterator[Running]:
    """nginx and the stand-in of a module. At the end, no token is in a log."""
    with lib.running(None, SETUP, more=ADDRESS_BY_HEADER) as site:
        recorder = Recorder(site.server_port)
        yield Running(site, recorder, iter(BIDDERS))
        recorder.stop()
        site.stop()
        logs = [file.read_text(errors="replace") for file in (site.folder / "log").iterdir()]
    for token in (*(bidder.token for bidder in BIDDERS), OPERATOR, UNKNOWN):
        assert not any(token in log for log in logs), f"{token} is in a log"


@pytest.fixture
def site(running: Running) -> Site:
    """nginx with an open gate."""
    set_gate(running.site, "open")
    return running.site


@pytest.fixture
def recorder(running: Running, site: Site) -> Recorder:
    """The stand-in, which no request has reached yet, while nginx has nothing in its cache."""
    empty_cache(site)
    running.recorder.reset()
    return running.recorder


@pytest.fixture
def new_bidder(running: Running) -> Callable[[], Bidder]:
    """Returns bidders that no test has taken yet."""
    return lambda: next(running.bidders)


@pytest.fixture
def bidder(new_bidder: Callable[[], Bidder]) -> Bidder:
    """A bidder that no other test has."""
    return new_bidder()
