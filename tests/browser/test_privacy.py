"""Tokens are not where they must not be, and the pages' files are served with their rule."""
import pytest

from tests.browser import scripts
from tests.browser.auction import OPERATORS, Auction, X, Y, example
from tests.browser.conftest import Begin
from tests.browser.people import close_round, enter
from tests.browser.window import Window
from tests.lib.paths import TOP
from tests.lib.setups import OPERATOR

TOKENS = (X, Y, OPERATOR)
RULE = "default-src 'self'"
FILES = sorted(file.name for file in (TOP / "web").iterdir())
OPERATORS_OWN = ("operator", "desk")
FOR_BIDDERS = [name for name in FILES if not name.startswith(OPERATORS_OWN)]


@pytest.fixture(scope="module")
def shared(begin_once: Begin) -> Auction:
    return begin_once(example("one_product"))


def test_no_token_is_kept(begin: Begin, x: Window, y: Window, operator: Window) -> None:
    """After bids, a draft, and a closing: in an address, a store, a page, a request, or a log."""
    auction = begin(example("one_product"))
    for window, token in ((x, X), (y, Y), (operator, OPERATOR)):
        enter(auction, window, token)
    for window in (x, y):
        window.bid(0, 2, 100)
        window.send("1 bid in force since")
    x.bid(0, 1, 100)
    x.until("the draft is kept", lambda: x.run("return sessionStorage.draft"))
    close_round(operator)
    operator.says("say", "Round 1 is closed")
    for window in (x, y, operator):
        text = window.run(scripts.KEPT)
        assert [token for token in TOKENS if token in text] == []
    lines = "".join(x.browser.log() + y.browser.log())
    assert [token for token in TOKENS if token in lines] == []
    logs = auction.logs()
    assert "PUT /v1/me/bids" in logs, "nginx's logs have the requests"
    assert [token for token in TOKENS if token in logs] == []


@pytest.mark.parametrize("name", FILES)
def test_a_file_of_the_pages_is_served_with_its_rule(shared: Auction, name: str) -> None:
    inside = shared.address(OPERATORS).replace(OPERATORS, name)
    addresses = [inside] if name.startswith(OPERATORS_OWN) else [inside, shared.address() + name]
    for address in addresses:
        status, head = shared.head(address)
        assert status == 200 and RULE in head["Content-Security-Policy"], address


@pytest.mark.parametrize("name", [name for name in FILES if name not in FOR_BIDDERS])
def test_the_operators_files_are_not_there_for_bidders(shared: Auction, name: str) -> None:
    assert shared.head(shared.address() + name)[0] == 404
