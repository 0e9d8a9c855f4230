"""Two auctions that differ only in what the rules do not publish look alike.

They have the same bytes at the same seconds. Only digests and signatures differ, which nobody can
guess.
"""
import pathlib
import re
from collections.abc import Callable
from typing import Any, NamedTuple

import pytest

from auction.conductor.report import State
from tests.conductor.conftest import Conduct
from tests.lib.conducted import ConductedAuction, conducted
from tests.lib.http import reply_to, text_of

WINDOWS = [(30, 60), (120, 150)]
DIGEST = re.compile(rb"[0-9a-f]{128}|[0-9a-f]{64}")
PAGES = ("status", "products", "rounds/1", "rounds/2", "me", "me/bids", "me/rounds/1")
Act = Callable[[ConductedAuction], object]


class Seen(NamedTuple):
    """What everyone sees at the end, and what X saw at some seconds."""

    public: dict[str, bytes]
    pages: list[bytes]


class Rivals(NamedTuple):
    """What Y does at which seconds, and how long closings and connections take."""

    acts: dict[int, Act]
    closing: float = 0.0
    connected: float = 0.0


def put(number: int, quantity: int, price: int, name: str = "Y") -> Act:
    return lambda auction: auction.put(name, number, quantity, price)


def several(*acts: Act) -> Act:
    return lambda auction: [act(auction) for act in acts]


X = {40: put(1, 2, 100, "X"), 130: put(2, 1, 110, "X")}
USUAL = Rivals({41: put(1, 1, 100), 131: put(2, 1, 110)})
GARBAGE = several(put(2, 1, 100), put(1, 3, 100), put(1, 1, 7))
DRAFTS = several(put(1, 2, 100), put(1, 0, 100), put(1, 2, 100))
OTHERS = {
    "sheets that were replaced": Rivals({35: DRAFTS, **USUAL.acts}),
    "sheets that were refused": Rivals({35: GARBAGE, 125: GARBAGE, **USUAL.acts}),
    "another order": Rivals({39: put(1, 1, 100), 129: put(2, 1, 110)}),
    "the last second": Rivals({59: put(1, 1, 100), 149: put(2, 1, 110)}),
    "a slow closing": USUAL._replace(closing=7.0),
    "requests that are on their way": USUAL._replace(connected=1.5),
}


def slow(auction: ConductedAuction, length: float) -> None:
    """Lets each closing take this time."""
    operator: Any = auction.conductor.context.operator
    ask = operator.ask

    def asked(path: str, body: bytes | None = None, seconds: float = 300) -> Any:
        page = ask(path, body, seconds)
        if body is not None:
            auction.clock.sleep(length)
        return page

    auction.let_ask(auction.conductor, asked)


def played(auction: ConductedAuction, rivals: Rivals) -> Seen:
    """Plays an auction, looking twice a second."""
    begin, pages, half = auction.clock.wall(), list[bytes](), 0
    slow(auction, rivals.closing)
    while auction.look() is not State.ENDED:
        after = auction.clock.wall() - begin
        for acts in (X, rivals.acts) if after == int(after) else ():
            acts.get(int(after), lambda _: None)(auction)
        is_near = any(0 <= after - closes < 10 + rivals.connected for _, closes in WINDOWS)
        auction.connections = frozenset("a" if is_near and rivals.connected else "")
        if after in (100.0, 115.0):
            pages += [
                reply_to(auction.port, text_of(f"GET /v1/{page}", "X" * 16)) for page in PAGES
            ]
        auction.clock.sleep(0.5 - auction.clock.wall() % 0.5)
        half += 1
        assert half < 1000, auction.states[-3:]
    return Seen(public_of(auction.folder / "public"), pages)


def public_of(folder: pathlib.Path) -> dict[str, bytes]:
    """The bytes of each public file, without digests and signatures."""
    files = [path for path in folder.rglob("*") if path.is_file()]
    return {
        str(path.relative_to(folder)): DIGEST.sub(b"DIGEST", path.read_bytes()) for path in files
    }


@pytest.fixture(scope="module")
def usual(program: pathlib.Path) -> Seen:
    with conducted(program, WINDOWS, rounds=2, publish=30) as auction:
        return played(auction, USUAL)


def test_the_usual_auction_has_two_rounds(usual: Seen) -> None:
    assert {"rounds/1.json", "rounds/2.json", "notices.jsonl"} < usual.public.keys()
    assert b'"ended":true' in usual.public["rounds/2.json"]


@pytest.mark.parametrize("rivals", OTHERS.values(), ids=OTHERS)
def test_what_everyone_sees_is_the_same(conduct: Conduct, usual: Seen, rivals: Rivals) -> None:
    other = played(conduct(WINDOWS, rounds=2, publish=30), rivals)
    assert other.public == usual.public
    assert other.pages == usual.pages


@pytest.mark.parametrize(
    ("name", "is_alike"), [("a slow closing", False), ("sheets that were replaced", True)]
)
def test_without_a_curtain_the_length_of_a_closing_is_seen(
    conduct: Conduct, name: str, is_alike: bool
) -> None:
    """So the comparison finds it."""
    seen = [
        played(conduct(WINDOWS, rounds=2, publish=0), rivals) for rivals in (USUAL, OTHERS[name])
    ]
    assert (seen[0].public == seen[1].public) == is_alike
