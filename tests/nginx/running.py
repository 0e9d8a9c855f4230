"""nginx and the stand-in for the server, as a module of tests has them."""
from collections.abc import Iterator
from typing import NamedTuple

from tests.lib import setups
from tests.lib.site import Site
from tests.nginx.recorder import Recorder
from tests.nginx.requests import OPERATOR, Bidder

BIDDERS = [Bidder(f"B{number}", f"B1DDERST0KEN{number:05}") for number in range(250)]
SETUP = setups.setup(
    [setups.product("A", 2)], [setups.bidder(*bidder, 2) for bidder in BIDDERS], operator=OPERATOR
)


class Running(NamedTuple):
    """What runs for a module, and the bidders that no test has taken yet."""

    site: Site
    recorder: Recorder
    bidders: Iterator[Bidder]


def set_gate(site: Site, *names: str) -> None:
    """Makes these files those of the gate."""
    gate = site.folder / "gate"
    gate.mkdir(exist_ok=True)
    for file in gate.iterdir():
        if file.name not in names:
            file.unlink()
    for name in names:
        (gate / name).touch()


def empty_cache(site: Site) -> None:
    """Removes all pages from nginx's cache, as the server's unit does."""
    for page in (site.folder / "tmp/cache").rglob("*"):
        if page.is_file():
            page.unlink()
