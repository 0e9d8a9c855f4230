"""What nginx reads of a set-up: who asks, and how long a sheet may be."""
from collections.abc import Sequence
from typing import Any, NamedTuple

MOST_BIDS, OF_A_BID, OF_MISTAKES, MOST = 8192, 128, 10_000, 1_048_576


class TokensFault(Exception):
    """What is wrong with the tokens of a set-up."""


class Person(NamedTuple):
    """A person who acts for a bidder. The token is empty if it was revoked."""

    bidder: str
    name: str
    token: str


def bidders_map(setup: dict[str, Any], persons: Sequence[Person] = ()) -> str:
    """A line of nginx's `map` for each token that a client may send, from token line to bidder.

    A bidder with persons has no line with its own token. nginx ignores case when it compares them.
    """
    own = [(bidder["token"], bidder["name"]) for bidder in setup["bidders"]]
    known = [setup["operator"], *(token for token, _ in own)]
    known += [one.token for one in persons if one.token]
    if len({token.lower() for token in known}) < len(known):
        raise TokensFault("two tokens differ by case only: choose other tokens")
    found = list[tuple[str, str]]()
    for token, name in own:
        tokens = [one.token for one in persons if one.bidder == name]
        found += [(each, name) for each in tokens or [token] if each]
    return "".join(f'"Bearer {token}" "{name}";\n' for token, name in found)


def persons_map(setup: dict[str, Any], persons: Sequence[Person]) -> str:
    """A line for each person with a token, from token line to that of its bidder."""
    tokens = {bidder["name"]: bidder["token"] for bidder in setup["bidders"]}
    return "".join(
        f'"Bearer {one.token}" "Bearer {tokens[one.bidder]}";\n' for one in persons if one.token
    )


def by_map(persons: Sequence[Person]) -> str:
    """A line for each person with a token, from token line to the person's name."""
    return "".join(f'"Bearer {one.token}" "{one.name}";\n' for one in persons if one.token)


def sheet_conf(setup: dict[str, Any]) -> str:
    """The most bytes of a sheet's body.

    A bid takes 55 bytes at most without white space. A sheet that can be accepted has at most 8,192
    bids, and for each product at most one more than its cap, since a product's quantities all rise
    or all fall. 128 bytes for each of these leave space for white space, and 10,000 bytes for a
    sheet with mistakes, so that the server can explain them.
    """
    bids = sum(product["cap"] + 1 for product in setup["products"])
    return f"client_max_body_size {min(MOST, OF_MISTAKES + OF_A_BID * min(MOST_BIDS, bids))};\n"
