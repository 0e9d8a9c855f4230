"""Tie-breaking numbers come from the seeds to which the operator committed."""
import hashlib
import itertools
import json
import pathlib
import subprocess
from collections.abc import Callable
from typing import NamedTuple

import pytest

from auction.formats.ties import Commitment, Committed, Draw, TiesFault, check_ties, tie_number
from tests.close.auction import CloseAuction, lists_each_once, set_up

SIZE = 20  # bidders, and products
ROUNDS = (1, 2, 3)
ALL = list(itertools.product(range(SIZE), range(SIZE)))
DRAWS = {"without-draw": "", "with-draw": "5 17 33 44 49"}
HMAC = ["openssl", "dgst", "-sha256", "-mac", "HMAC", "-r", "-macopt"]
Ties = list[list[int]]


class Played(NamedTuple):
    """An auction of three rounds: its chain, the seeds from the end on, and the listed numbers."""

    chain: Committed
    seeds: list[bytes]
    ties: dict[int, Ties]


def number_by_openssl(seed: bytes, message: str) -> int:
    """A tie-breaking number by openssl: the first six bytes of HMAC-SHA-256."""
    words = [*HMAC, f"hexkey:{seed.hex()}"]
    done = subprocess.run(words, input=message.encode(), capture_output=True, check=True)
    return int(done.stdout[:12], 16)


def published_draw(auction: CloseAuction) -> str:
    """The published result of the draw, or nothing."""
    file = auction.public / "draw.json"
    return Draw.of(json.loads(file.read_text())).words if file.exists() else ""


def play(auction: CloseAuction, draw: str) -> Played:
    """Plays rounds in which each bidder asks for a block of each product, above the supply."""
    files = (auction.setup_file, auction.kept, auction.public)
    if draw:
        assert auction.run("commit", *files, "--draw", draw).returncode == 0
    price = 100
    for number in ROUNDS:
        for bidder in range(SIZE):
            auction.bid(bidder, range(SIZE), number, price)
        assert auction.yes(number).status == 0
        price = auction.ask(f"GET /v1/rounds/{number}")["products"][0]["next"]
    chain = Commitment.read(auction.public / "commitment.json").chain
    assert chain is not None
    assert chain.draw == ""
    chain = chain.after(published_draw(auction))
    seeds = [bytes.fromhex(auction.stored(f"round-{number}.json")["seed"]) for number in ROUNDS]
    ties = {number: auction.ties(number) for number in ROUNDS}
    return Played(chain, [chain.end, *seeds], ties)


@pytest.fixture(scope="module")
def auctions(program: pathlib.Path, tmp_path_factory: pytest.TempPathFactory) -> dict[str, Played]:
    """Two auctions that are alike, one of them with a draw."""
    found = {}
    for draw in DRAWS.values():
        folder = tmp_path_factory.mktemp("chain")
        with CloseAuction(program, folder, set_up(SIZE, SIZE)) as auction:
            found[draw] = play(auction, draw)
    return found


@pytest.fixture(params=DRAWS.values(), ids=list(DRAWS))
def played(auctions: dict[str, Played], request: pytest.FixtureRequest) -> Played:
    """One of the two auctions."""
    return auctions[request.param]


# ---- What is listed


def test_the_number_of_the_example_in_the_formats() -> None:
    assert tie_number(bytes(31) + b"\1", "", 2, 0, 1) == 0x842F47155384


@pytest.mark.parametrize("draw", DRAWS.values(), ids=DRAWS)
def test_the_draw_is_published_next_to_the_commitment(
    auctions: dict[str, Played], draw: str
) -> None:
    assert auctions[draw].chain.draw == draw


def test_each_seed_leads_to_the_one_before(played: Played) -> None:
    for before, seed in itertools.pairwise(played.seeds):
        assert hashlib.sha256(seed).digest() == before


@pytest.mark.needs("openssl")
@pytest.mark.parametrize("pair", [(0, 0), (0, 19), (19, 0), (7, 11)], ids=str)
@pytest.mark.parametrize("number", [2, 3])
def test_openssl_computes_the_listed_number(
    played: Played, number: int, pair: tuple[int, int]
) -> None:
    bidder, product = pair
    listed = {(one, other): given for one, other, given in played.ties[number]}
    message = f"{number} {bidder} {product} {played.chain.draw}"
    assert listed[pair] == number_by_openssl(played.seeds[number], message)


@pytest.mark.parametrize("number", ROUNDS)
def test_the_listed_numbers_are_those_of_the_seed(played: Played, number: int) -> None:
    check_ties(played.chain, number, played.seeds[number], played.ties[number], SIZE, SIZE)


def test_round_1_lists_no_number(played: Played) -> None:
    assert played.ties[1] == []


@pytest.mark.parametrize("number", [2, 3])
def test_a_later_round_lists_each_pair_once(played: Played, number: int) -> None:
    assert lists_each_once(played.ties[number], ALL)


def test_no_two_rounds_and_no_two_auctions_have_the_same_numbers(
    auctions: dict[str, Played]
) -> None:
    lists = [str(one.ties[number]) for one in auctions.values() for number in (2, 3)]
    assert len(set(lists)) == 4


# ---- Lists of round 3 in which something was changed


def with_number_of_round_2(played: Played, ties: Ties) -> Ties:
    return [[0, 0, tie_number(played.seeds[2], played.chain.draw, 2, 0, 0)], *ties[1:]]


LISTS: dict[str, Callable[[Played, Ties], Ties]] = {
    "another-number": lambda _, ties: [[0, 0, ties[0][2] ^ 1], *ties[1:]],
    "two-numbers-exchanged": lambda _, ties: [[0, 0, ties[1][2]], [0, 1, ties[0][2]], *ties[2:]],
    "a-pair-left-out": lambda _, ties: ties[:-1],
    "none": lambda _played, _ties: [],
    "a-number-of-round-2": with_number_of_round_2,
}


@pytest.mark.parametrize("change", LISTS.values(), ids=LISTS)
def test_a_changed_list_is_refused(played: Played, change: Callable[[Played, Ties], Ties]) -> None:
    ties = change(played, played.ties[3])
    with pytest.raises(TiesFault):
        check_ties(played.chain, 3, played.seeds[3], ties, SIZE, SIZE)


SEEDS: dict[str, Callable[[Played], bytes | None]] = {
    "of-another-round": lambda played: played.seeds[2],
    "none": lambda _: None,
    "zeros": lambda _: bytes(32),
    "half-of-it": lambda played: played.seeds[3][:16],
}


@pytest.mark.parametrize("seed", SEEDS.values(), ids=SEEDS)
def test_another_seed_is_refused(played: Played, seed: Callable[[Played], bytes | None]) -> None:
    with pytest.raises(TiesFault):
        check_ties(played.chain, 3, seed(played), played.ties[3], SIZE, SIZE)


@pytest.mark.parametrize("name", ["zeros", "of-another-round"])
def test_another_seed_is_refused_if_the_numbers_fit_it(played: Played, name: str) -> None:
    seed = SEEDS[name](played)
    assert seed is not None
    ties = [[*pair, tie_number(seed, played.chain.draw, 3, *pair)] for pair in ALL]
    with pytest.raises(TiesFault):
        check_ties(played.chain, 3, seed, ties, SIZE, SIZE)


def test_numbers_without_a_chain_are_refused(played: Played) -> None:
    with pytest.raises(TiesFault):
        check_ties(None, 3, None, played.ties[3], SIZE, SIZE)


def test_no_numbers_are_right_without_a_chain() -> None:
    check_ties(None, 3, None, [], SIZE, SIZE)


# ---- More pairs than a closing can list


LARGE = (129, 128)
MATTER = [(0, product) for product in range(3)]


def numbers_of(played: Played, pairs: list[tuple[int, int]]) -> Ties:
    """The numbers of some pairs in round 3."""
    seed, draw = played.seeds[3], played.chain.draw
    return [[*pair, tie_number(seed, draw, 3, *pair)] for pair in pairs]


def test_the_pairs_that_matter_are_enough(played: Played) -> None:
    ties = numbers_of(played, MATTER)
    check_ties(played.chain, 3, played.seeds[3], ties, *LARGE, MATTER)


def test_none_are_right_if_too_many_pairs_matter(played: Played) -> None:
    every = set(itertools.product(range(LARGE[0]), range(LARGE[1])))
    check_ties(played.chain, 3, played.seeds[3], [], *LARGE, every)


@pytest.mark.parametrize("left", [MATTER[1:], []], ids=["one-left-out", "none"])
def test_each_pair_that_matters_must_be_listed(played: Played, left: list[tuple[int, int]]) -> None:
    with pytest.raises(TiesFault):
        check_ties(played.chain, 3, played.seeds[3], numbers_of(played, left), *LARGE, MATTER)
