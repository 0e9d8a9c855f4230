"""The tie-breaking numbers and the increments of a closing."""
import itertools
from collections.abc import Callable

import pytest

from auction.formats.ties import MOST_TIES
from tests.close.auction import CloseAuction, lists_each_once, set_up
from tests.close.relay import Loss


def bid_twice(auction: CloseAuction, bidders: int, products: int, asked: int) -> None:
    """All bid for `asked` products in round 1, and every other bidder for others in round 2."""
    for bidder in range(bidders):
        auction.bid(bidder, range(asked))
    assert auction.yes(1).status == 0
    wanted = range(1, asked + 1) if asked < products else range(asked)
    for bidder in range(0, bidders, 2):
        auction.bid(bidder, wanted, 2, price=110)


def pairs_that_matter(bidders: int, products: int, asked: int) -> list[tuple[int, int]]:
    """All pairs if a closing can list them, or else those with processed demand or a bid."""
    pairs = list(itertools.product(range(bidders), range(products)))
    if len(pairs) <= MOST_TIES:
        return pairs
    return [
        (bidder, product)
        for bidder, product in pairs
        if product < asked or product == asked and bidder % 2 == 0
    ]


@pytest.mark.parametrize(("bidders", "products", "asked"), [(128, 128, 3), (129, 128, 3)])
def test_each_pair_that_matters_has_a_number(
    auction_of: Callable[[object], CloseAuction], bidders: int, products: int, asked: int
) -> None:
    auction = auction_of(set_up(bidders, products))
    bid_twice(auction, bidders, products, asked)
    said = auction.yes(2)
    assert said.status == 0, said
    assert lists_each_once(auction.ties(2), pairs_that_matter(bidders, products, asked))


def test_if_too_many_pairs_matter_only_no_ties_closes(
    auction_of: Callable[[object], CloseAuction]
) -> None:
    auction = auction_of(set_up(170, 100))
    bid_twice(auction, 170, 100, 100)
    said = auction.yes(2)
    assert said.status == 1
    assert "17000 pairs" in said.errors
    assert auction.round() == 2
    assert auction.yes(2, "10", "--no-ties").status == 0
    assert auction.ties(2) == []


# ---- Increments in version 2


@pytest.fixture
def three(auction_of: Callable[[object], CloseAuction]) -> CloseAuction:
    """An auction of version 2, with two bidders' sheets for three products."""
    auction = auction_of(set_up(2, 3, 2))
    for bidder in range(2):
        auction.bid(bidder, range(3))
    return auction


def test_two_increments_for_three_products_are_refused(three: CloseAuction) -> None:
    said = three.yes(1, "10,20")
    assert said.status == 1
    assert "increment" in said.errors
    assert three.round() == 1


def test_each_product_can_have_an_increment_of_its_own(three: CloseAuction) -> None:
    assert three.yes(1, "10,20,30").status == 0
    page = three.ask("GET /v1/rounds/1")
    assert [product["next"] for product in page["products"]] == [110, 120, 130]


def test_one_increment_for_all_is_the_same_as_one_for_each(three: CloseAuction) -> None:
    """A closing that was made with one for all is sent again by a call with one for each."""
    three.relay.lose = Loss.REQUEST
    three.yes(1, "25")
    three.relay.lose = Loss.NOTHING
    assert three.yes(1, "25,25,25").status == 0
    assert three.stored("closing-1.json")["increments"] == [25] * 3
