"""Tries to find a reply by which a bidder could tell two auctions apart that are one to it.

In the second auction two rivals do each other's acts, send sheets that they replace, send refused
requests, and look at pages. What is published and what X does and wins is the same, so each byte
that X gets must be.
"""
import itertools
import pathlib
from collections.abc import Callable
from random import Random

import pytest

from auction.recount.formats import Refused, setup_in
from auction.recount.rules import Auction, take
from tests.lib import setups
from tests.lib.http import compact, reply_to, text_of
from tests.lib.server import Server
from tests.recount.auctions import random_sheet

PAIRS = range(6)
X, RIVALS = "X" * 16, ("Y" * 16, "Z" * 16)
Act = tuple[str, bytes]  # whose request, and the request
Ask = Callable[[str, bytes], bytes]


def document() -> bytes:
    bidders = [setups.bidder(token[0], token, 6) for token in (X, *RIVALS)]
    products = [setups.product(name, supply=2, cap=2) for name in "AB"]
    return compact(setups.setup(products, bidders))


def swapped(token: str) -> str:
    """The other rival's token, or the token itself."""
    return {RIVALS[0]: RIVALS[1], RIVALS[1]: RIVALS[0]}.get(token, token)


def sheet_of(chance: Random, auction: Auction, bidder: int) -> bytes | None:
    """The body of a random sheet that the rules accept now, if one is found soon."""
    token = auction.setup.bidders[bidder].token
    tokens = {one.token: place for place, one in enumerate(auction.setup.bidders)}
    number = len(auction.rounds) + 1
    for _ in range(20):
        bids = [bid._asdict() for bid in random_sheet(chance, auction, bidder)]
        body = compact({"bids": bids, "round": number})
        try:
            take(auction, tokens, text_of("PUT /v1/me/bids", token, body))
        except Refused:
            continue
        return body
    return None


def looks(number: int) -> list[bytes]:
    """What X asks after each act."""
    pages = ["status", "products", "me", "me/bids"]
    pages += [f"rounds/{before}" for before in range(1, number + 1)]
    pages += [f"me/rounds/{before}" for before in range(1, number + 1)]
    return [text_of(f"GET /v1/{page}", X) for page in pages]


def noise(chance: Random, token: str, number: int) -> list[Act]:
    """What a rival also does, without an effect."""
    return [
        (token, text_of("GET /v1/me", token)),
        (token, text_of("PUT /v1/me/bids", token, b"{}")),
        (token, text_of("PUT /v1/me/bids", token, compact({"bids": [], "round": number}))),
    ][: chance.randint(0, 3)]


def closing(number: int, ties: dict[tuple[int, int], int]) -> bytes:
    listed = [[bidder, product, tie] for (bidder, product), tie in sorted(ties.items())]
    body = compact({"increment": 10, "round": number, "ties": listed if number > 1 else []})
    return text_of("POST /v1/close", setups.OPERATOR, body)


def pair_of(seed: int) -> tuple[list[Act], list[Act]]:
    """The acts of two auctions that are one to X."""
    chance, auction = Random(seed), Auction(setup_in(document()))
    tokens = {one.token: place for place, one in enumerate(auction.setup.bidders)}
    one, other = list[Act](), list[Act]()
    for number in range(1, 5):
        for token in chance.sample((X, *RIVALS), 3):
            body = sheet_of(chance, auction, tokens[token])
            if body is None:
                continue
            if token != X:
                other += noise(chance, swapped(token), number)
            one.append((token, text_of("PUT /v1/me/bids", token, body)))
            other.append((swapped(token), text_of("PUT /v1/me/bids", swapped(token), body)))
            seen = [(X, text) for text in looks(number)]
            one, other = one + seen, other + seen
        numbers = chance.sample(range(1_000), 6)
        ties = dict(zip(itertools.product(range(3), range(2)), numbers))
        exchanged = {(place and 3 - place, product): tie for (place, product), tie in ties.items()}
        take(auction, tokens, closing(number, ties))
        seen = [(X, text) for text in looks(number)]
        one += [(setups.OPERATOR, closing(number, ties)), *seen]
        other += [(setups.OPERATOR, closing(number, exchanged)), *seen]
        if auction.ended:
            break
    return one, other


def seen_by_x(acts: list[Act], ask: Ask) -> list[bytes]:
    """The replies to X's requests."""
    replies = [(token, ask(token, text)) for token, text in acts]
    return [reply for token, reply in replies if token == X]


@pytest.fixture
def started(server: Callable[..., Server], tmp_path: pathlib.Path) -> Callable[[], Ask]:
    """Starts a server of the auction, and returns how to ask it."""
    (tmp_path / "setup.json").write_bytes(document())

    def start() -> Ask:
        port = server(tmp_path / "setup.json").ready().port
        return lambda _, text: reply_to(port, text)

    return start


@pytest.mark.parametrize("seed", PAIRS)
def test_a_bidder_gets_the_same_bytes_in_both_auctions(
    seed: int, started: Callable[[], Ask]
) -> None:
    one, other = pair_of(seed)
    assert one != other
    replies = seen_by_x(one, started())
    assert len(replies) > 20
    assert any(b'"accepted":true' in reply for reply in replies)
    assert replies == seen_by_x(other, started())


# ---- Planted leaks


def counts_sheets(ask: Ask) -> Ask:
    """X sees how many sheets were accepted."""
    count = 0

    def leak(token: str, text: bytes) -> bytes:
        nonlocal count
        reply = ask(token, text)
        count += b'"accepted":true' in reply
        return reply + str(count).encode() if token == X else reply

    return leak


def fails_after_a_rival(ask: Ask) -> Ask:
    """X's request fails if Y was the last to ask."""
    last = ""

    def leak(token: str, text: bytes) -> bytes:
        nonlocal last
        before, last = last, token
        reply = ask(token, text)
        return b"HTTP/1.1 503 \r\n\r\n" if token == X and before == RIVALS[0] else reply

    return leak


def names_the_winner(ask: Ask) -> Ask:
    """X sees who bid first in a round."""
    begun = ""

    def leak(token: str, text: bytes) -> bytes:
        nonlocal begun
        if text.startswith(b"POST "):
            begun = ""
        elif text.startswith(b"PUT ") and not begun:
            begun = token
        reply = ask(token, text)
        return reply + begun.encode() if token == X else reply

    return leak


LEAKS = {
    "how-many-sheets": counts_sheets,
    "a-failure-after-a-rival": fails_after_a_rival,
    "who-bid-first": names_the_winner,
}


@pytest.mark.parametrize("leak", LEAKS.values(), ids=list(LEAKS))
def test_a_planted_leak_is_found(leak: Callable[[Ask], Ask], started: Callable[[], Ask]) -> None:
    assert any(
        seen_by_x(one, leak(started())) != seen_by_x(other, leak(started()))
        for one, other in map(pair_of, PAIRS)
    )
