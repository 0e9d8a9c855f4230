"""What marks a mock auction, and which set-ups and folders go together."""
import itertools
import json

import pytest

from auction.mock import Kind, disagreement, kind_of, kind_of_value, marked_page, mock_of
from tests.lib import setups
from tests.lib.paths import TOP

pytestmark = pytest.mark.early

REAL, OTHER, LOWER = "a1b2c3d4e5f6a7b8", "MOCKa1b2c3d4e5f6", "mockA1B2C3D4E5F6"
BIDDERS = [setups.bidder(name, name * 16, 2) for name in "XY"]
SETUP = setups.setup([setups.product("A", 2)], BIDDERS)


@pytest.mark.parametrize("tokens", itertools.product([REAL, OTHER, LOWER], repeat=3))
def test_the_kind_is_that_of_all_tokens(tokens: tuple[str, ...]) -> None:
    mocks = sum(token is not REAL for token in tokens)
    assert kind_of(tokens) is {0: Kind.REAL, 3: Kind.MOCK}.get(mocks, Kind.MIXED)


@pytest.mark.parametrize("committed", [False, True])
@pytest.mark.parametrize("kind", Kind)
def test_only_a_set_up_and_a_commitment_of_one_kind_go_together(
    kind: Kind, committed: bool
) -> None:
    agrees = (kind, committed) in {(Kind.REAL, False), (Kind.MOCK, True)}
    fault = disagreement(kind, committed)
    assert (fault is None) == agrees
    assert agrees or "mock auction" in str(fault)


def test_a_mock_has_the_same_products_and_bidders() -> None:
    made = json.loads(mock_of(json.dumps(SETUP).encode()))
    for value in (made, json.loads(json.dumps(SETUP))):
        for owner, key in ((value, "operator"), *((one, "token") for one in value["bidders"])):
            owner[key] = ""
        if value is not made:
            assert value == made


def test_each_token_of_a_mock_is_drawn() -> None:
    first, second = (json.loads(mock_of(json.dumps(SETUP).encode())) for _ in range(2))
    tokens = [
        token
        for value in (first, second)
        for token in (value["operator"], *(one["token"] for one in value["bidders"]))
    ]
    assert len(set(tokens)) == 6
    assert kind_of_value(first) is Kind.MOCK


@pytest.mark.parametrize("page", sorted(path.name for path in (TOP / "web").glob("*.html")))
def test_a_marked_page_says_so_before_anything_else(page: str) -> None:
    text = (TOP / "web" / page).read_text()
    marked = marked_page(text)
    body = marked.partition("<body")[2].partition(">\n")[2]
    assert body.startswith('<p id="mock" class="mock">Mock auction: nothing is sold.</p>\n')
    assert "<title>MOCK · " in marked
    assert "<title>MOCK" not in text and 'id="mock"' not in text
