"""Tries to find a body that breaks its contract, and that the prover accepts.

A crate of this test's own has functions with one contract and random bodies. Some values of the
arguments refute most of them. `rt check` must name each of these. No other crate is proved.
"""
import pathlib
import random
import re
import subprocess
from collections.abc import Callable, Iterator
from typing import NamedTuple

import pytest

from tests.lib.paths import PATHS

pytestmark = [pytest.mark.early, pytest.mark.needs("rt"), pytest.mark.slow]

CRATE, SECONDS = "tried_bodies", 280
HEAD = """//! Functions with one contract, and bodies that were drawn.
#![tactic(auto)]

ghost use Rattle.std.specs.Prelude.{◌≤◌};
"""
FUNCTION = """
/// Returns a price that is not above either of two.
pub fn NAME(a: u64, b: u64) -> u64
    ensures first { result ≤ a }
    ensures second { result ≤ b }
{
    BODY
}
"""
MOST = 2**64 - 1
VALUES = (0, 1, 2, 3, MOST - 1, MOST)
RIGHT = {
    "least": "if a <= b { a } else { b }",
    "nothing": "0",
    "strict": "if b < a { b } else { a }",
}
# The only fault of this body is a difference below 0.
BELOW = {"below": "if a <= b { a - 1 } else { b - 1 }"}
DRAWN = 6


class Broken(Exception):
    """A body that does no defined thing for some arguments."""


class Said(NamedTuple):
    """What a prover says of a crate: its status, and its words."""

    status: int
    words: str


# ---- Bodies, and whether they are wrong


def value_of(word: str, a: int, b: int) -> int:
    """The value of an expression such as `a`, `0`, or `b + 1`."""
    first, _, more = word.partition(" ")
    number = {"a": a, "b": b, "0": 0}[first]
    number += {"": 0, "+ 1": 1, "- 1": -1}[more]
    if not 0 <= number <= MOST:
        raise Broken(word)
    return number


def result_of(body: str, a: int, b: int) -> int:
    """What a body returns, as the rules of Rust say."""
    found = re.fullmatch(r"if (\w) (<=|<) (\w) \{ (.+) \} else \{ (.+) \}", body)
    if not found:
        return value_of(body, a, b)
    one, sign, other, then, otherwise = found.groups()
    left, right = value_of(one, a, b), value_of(other, a, b)
    holds = left <= right if sign == "<=" else left < right
    return value_of(then if holds else otherwise, a, b)


def breaks(body: str, a: int, b: int) -> bool:
    try:
        return result_of(body, a, b) > min(a, b)
    except Broken:
        return True


def is_wrong(body: str) -> bool:
    """Whether some arguments show that a body breaks the contract."""
    return any(breaks(body, a, b) for a in VALUES for b in VALUES)


def drawn(seed: int) -> Iterator[str]:
    """Random bodies."""
    chance, words = random.Random(seed), ("a", "b", "0", "a + 1", "b + 1", "a - 1", "b - 1")
    while True:
        one, other = chance.sample(("a", "b"), 2)
        sign, then, otherwise = chance.choice(("<=", "<")), *chance.choices(words, k=2)
        yield f"if {one} {sign} {other} {{ {then} }} else {{ {otherwise} }}"


def wrong_bodies() -> dict[str, str]:
    """Bodies that are wrong, by the names of their functions."""
    found = [body for body, _ in zip(drawn(105), range(50)) if is_wrong(body)]
    return {**BELOW, **{f"drawn_{place}": body for place, body in enumerate(found[:DRAWN])}}


WRONG = wrong_bodies()


# ---- The prover


def write(folder: pathlib.Path) -> pathlib.Path:
    """Writes a repository with the crate. Returns the crate's folder."""
    source = folder / "crates" / CRATE / "src"
    source.mkdir(parents=True)
    (folder / "crates.txt").write_text(f"{CRATE}:\n")
    functions = [
        FUNCTION.replace("NAME", name).replace("BODY", body)
        for name, body in {**RIGHT, **WRONG}.items()
    ]
    (source / "lib.rt").write_text(HEAD + "".join(functions))
    return source.parent


def taken(said: Said) -> set[str]:
    """The functions that a prover takes. An output that names no function is no verdict."""
    if said.status == 0:
        return {*RIGHT, *WRONG}
    named = set(re.findall(r"of proofs/(\w+)/Answers\.antt", said.words))
    assert named <= {*RIGHT, *WRONG} and named, said.words
    return {*RIGHT, *WRONG} - named


@pytest.fixture(scope="module")
def said(tmp_path_factory: pytest.TempPathFactory) -> Said:
    """What `rt check` says of the crate."""
    crate = write(tmp_path_factory.mktemp("proofs"))
    done = subprocess.run(
        ["rt", "check"],
        cwd=crate,
        env={"PATH": PATHS, "HOME": str(crate)},
        capture_output=True,
        text=True,
        timeout=SECONDS,
    )
    return Said(done.returncode, done.stdout + done.stderr)


def test_bodies_are_judged_by_the_arguments() -> None:
    assert not any(map(is_wrong, RIGHT.values()))
    assert len(WRONG) == 1 + DRAWN and all(map(is_wrong, WRONG.values()))
    assert is_wrong("a") and is_wrong("if a <= b { b } else { a }") and is_wrong("b + 1")


@pytest.mark.timeout(SECONDS)
def test_no_wrong_body_is_taken_and_right_ones_are(said: Said) -> None:
    assert taken(said) == RIGHT.keys()


# ---- Planted mistakes


def yes_to_all(_: Said) -> Said:
    return Said(0, "")


def without(name: str) -> Callable[[Said], Said]:
    """A prover that does not look at one function."""

    def prover(said: Said) -> Said:
        lines = [line for line in said.words.splitlines() if f"proofs/{name}/" not in line]
        return Said(said.status, "\n".join(lines))

    return prover


def without_overflow(said: Said) -> Said:
    """A prover that does not know that numbers have bounds."""
    lines = [line for line in said.words.splitlines() if "overflow" not in line]
    return Said(said.status, "\n".join(lines))


MISTAKES = {
    "yes-to-all": yes_to_all,
    "a-function-left-out": without("drawn_0"),
    "no-overflow": without_overflow,
}


@pytest.mark.parametrize("mistake", MISTAKES.values(), ids=list(MISTAKES))
def test_a_planted_mistake_of_the_prover_is_found(
    mistake: Callable[[Said], Said], said: Said
) -> None:
    assert taken(mistake(said)) & WRONG.keys()
