"""Practices of each kind that play the player's part too, and end by themselves."""
import json
import os
import pathlib
import socket
from collections.abc import Callable
from typing import Any

import pytest

from tests.lib.paths import EXAMPLES
from tests.lib.ports import free_port
from tests.practice.conftest import Start
from tests.practice.ending import CHECKS, Ending
from tests.practice.practice import TOKEN, Practice

OWN = json.loads((EXAMPLES / "rehearsal_version_2.json").read_text())["setup"]
PAGE = {key: OWN[key] for key in ("version", "requirement", "limit", "products")}
KINDS = {
    "plain": [],
    "version 2": ["--version-2"],
    "large": ["--products", "30", "--bidders", "9"],
    "small": ["--products", "1", "--bidders", "2"],
    "own": ["--setup", "own.json", "--you", "Birch"],
    "page": ["--setup", "page.json", "--bidders", "3"],
    "limits": ["--setup", str(EXAMPLES / "one_product.json"), "--values", "limits.json"],
}
EndOf = Callable[[str], tuple[int, Ending]]


@pytest.fixture(scope="module")
def end_of(start: Start, tmp_path_factory: pytest.TempPathFactory) -> EndOf:
    """The status and the end of the practice of a kind. All are played at once."""
    work = tmp_path_factory.mktemp("kinds")
    files = {"own.json": OWN, "page.json": PAGE, "limits.json": {"A": [140, 111]}}
    for name, value in files.items():
        (work / name).write_text(json.dumps(value))
    running = {}
    for kind, words in KINDS.items():
        paths = [str(work / word) if word in files else word for word in words]
        running[kind] = start(work / kind, "--demo", "--seed", "5", *paths)
    done: dict[str, int] = {}

    def end(kind: str) -> tuple[int, Ending]:
        if kind not in done:
            done[kind] = running[kind].rest()
        return done[kind], Ending(running[kind])

    return end


@pytest.mark.parametrize("kind", KINDS)
def test_a_practice_ends_by_itself(end_of: EndOf, kind: str) -> None:
    status, ending = end_of(kind)
    assert status == 0, ending.said


@pytest.mark.parametrize("check", CHECKS, ids=lambda check: check.__name__)
@pytest.mark.parametrize("kind", KINDS)
def test_the_end_fits_its_files(end_of: EndOf, kind: str, check: Callable[[Ending], None]) -> None:
    check(end_of(kind)[1])


@pytest.mark.parametrize("kind", KINDS)
def test_the_gain_is_that_of_a_bidder_that_follows_the_values(end_of: EndOf, kind: str) -> None:
    _, ending = end_of(kind)
    assert f": a gain of {ending.gain}." in ending.said


def setup_of(end_of: EndOf, kind: str) -> dict[str, Any]:
    return end_of(kind)[1].setup


def test_the_numbers_of_products_and_bidders(end_of: EndOf) -> None:
    setup = setup_of(end_of, "large")
    assert (len(setup["products"]), len(setup["bidders"])) == (30, 9)


def test_a_practice_of_version_2_has_a_limit(end_of: EndOf) -> None:
    setup = setup_of(end_of, "version 2")
    assert (setup["version"], setup["limit"]) == (2, 120)
    assert setup_of(end_of, "plain")["version"] == 1


def test_ones_own_auction_has_its_products_and_bidders(end_of: EndOf) -> None:
    setup, without = setup_of(end_of, "own"), {"operator": "", "bidders": []}
    assert {**setup, **without} == {**OWN, **without}
    names = [
        [(bidder["name"], bidder["eligibility"]) for bidder in each["bidders"]]
        for each in (setup, OWN)
    ]
    assert names[0] == names[1]


def test_one_plays_the_bidder_that_is_named(end_of: EndOf) -> None:
    bidders = setup_of(end_of, "own")["bidders"]
    assert [one["name"] for one in bidders if one["token"] == TOKEN] == ["Birch"]


def test_the_tokens_of_ones_own_auction_are_replaced(end_of: EndOf) -> None:
    own = {bidder["token"] for bidder in OWN["bidders"]}
    assert own & {bidder["token"] for bidder in setup_of(end_of, "own")["bidders"]} == set()


def test_ones_own_values_are_taken(end_of: EndOf) -> None:
    assert end_of("limits")[1].read("values.json") == {"A": [140, 111]}


# ---- What a practice does not start with

ONE = str(EXAMPLES / "one_product.json")
README = str(EXAMPLES.parent / "README.md")
REFUSALS = {
    "one bidder": (["--bidders", "1"], "'1' is not a whole number from 2 to 512"),
    "a set-up and products": (
        ["--setup", ONE, "--products", "2"],
        "--setup FILE says which products there are",
    ),
    "a name without a set-up": (["--you", "X"], "--you NAME needs --setup FILE"),
    "an unknown name": (
        ["--setup", ONE, "--you", "Q"],
        "no bidder is called Q. The bidders are X, Y.",
    ),
    "no set-up": (["--setup", README], "is neither a set-up document nor a page of products"),
    "a wrong set-up": (
        ["--setup", "bad.json"],
        "The server ended: fault: setup_range requirement",
    ),
    "no program": (["--program", "none"], "is not a program."),
    "no values": (["--setup", ONE, "--values", README], "README.md"),
    "values of no product": (
        ["--setup", ONE, "--values", "limits.json"],
        "limits.json: no product is called Q.",
    ),
    "a folder with a file": (["--folder", "full"], "is not empty"),
}


@pytest.mark.parametrize("words, said", REFUSALS.values(), ids=REFUSALS)
def test_a_practice_is_refused_in_one_line(
    start: Start, tmp_path: pathlib.Path, words: list[str], said: str
) -> None:
    (tmp_path / "full").mkdir()
    (tmp_path / "full" / "file").touch()
    bad = {**json.loads(pathlib.Path(ONE).read_text()), "requirement": 20}
    (tmp_path / "bad.json").write_text(json.dumps(bad))
    (tmp_path / "limits.json").write_text(json.dumps({"A": [140], "Q": [140]}))
    here = ("full", "bad.json", "limits.json", "none")
    practice = start(
        tmp_path / "new", *[str(tmp_path / word) if word in here else word for word in words]
    )
    assert practice.rest() != 0
    assert said in practice.said and "Traceback" not in practice.said


@pytest.mark.parametrize("place", [0, 1], ids=["the page's", "the server's"])
def test_a_port_in_use_is_refused(start: Start, tmp_path: pathlib.Path, place: int) -> None:
    first = free_port(3) + 1
    with socket.socket() as other:
        other.setsockopt(socket.SOL_SOCKET, socket.SO_REUSEADDR, 1)
        other.bind(("127.0.0.1", first + place))
        other.listen()
        practice = start(tmp_path / "new", "--port", str(first))
        assert practice.rest() != 0
    words = f"Port {first + place}: Address already in use. Choose another one with --port."
    assert words in practice.said and "Traceback" not in practice.said


# ---- Without a built program

RT = """#!/bin/sh
# As `rt try --seconds S -- WORDS`, with a program that is compiled already.
shift 4
exec {} "$@"
"""


def test_without_a_built_program_an_unproved_one_is_compiled_and_compared(
    clone: pathlib.Path, program: pathlib.Path, tmp_path: pathlib.Path
) -> None:
    (tmp_path / "rt").write_text(RT.format(program))
    (tmp_path / "rt").chmod(0o755)
    words = ["--demo", "--seed", "5", "--products", "1", "--bidders", "2"]
    environment = {**os.environ, "PATH": f"{tmp_path}:/usr/bin:/bin"}
    practice = Practice(clone, tmp_path / "new", *words, environment=environment)
    try:
        assert practice.rest() == 0, practice.said
    finally:
        practice.stop()
    assert "compiling, unproved: 0:00 of about 2 minutes" in practice.said
    assert "A bidder that follows your values in every round would have won" in practice.said
    assert "`auction recount` and `clock_auction audit` count the auction again" in practice.said
