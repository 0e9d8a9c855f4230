"""A server with nginx, and the ports of both."""
import pathlib
from collections.abc import Iterator

import pytest

from tests.lib.site import Site, running
from tests.ports.port import BIDDERS, PRODUCTS, Port, setup_of


@pytest.fixture(scope="module")
def site(program: pathlib.Path) -> Iterator[Site]:
    """Server and nginx with the set-up whose pages are the longest."""
    with running(program, setup_of(BIDDERS, PRODUCTS)) as started:
        yield started


@pytest.fixture
def straight(site: Site) -> Port:
    """The server's own port."""
    return Port(site.server_port)


@pytest.fixture
def behind(site: Site) -> Port:
    """nginx's port for bidders."""
    return Port(site.outside, has_tls=True)


@pytest.fixture(scope="module")
def others() -> Iterator[int]:
    """Bidders whose accounts are asked for, each once."""
    return iter(range(100, BIDDERS))
