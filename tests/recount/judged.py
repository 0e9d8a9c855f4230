"""Random auctions, judged by the recount and by `clock_auction audit`."""
import functools
import pathlib
import subprocess
from collections.abc import Callable
from random import Random

from auction.recount.formats import Refused
from auction.recount.rules import recounted, report
from tests.recount.auctions import Played, played
from tests.recount.spoiled import Case, spoiled

AUCTIONS = range(500)

Printed = tuple[int, str, str]
Audit = Callable[[Case], Printed]


@functools.cache
def auction_of(seed: int) -> tuple[Played, list[Case]]:
    """An auction, and its spoiled journals."""
    chance = Random(seed)
    game = played(chance)
    return game, list(spoiled(chance, game.document, game.texts))


def by_recount(case: Case) -> Printed:
    """The status, output, and error of `auction recount`, without starting it."""
    try:
        lines = list(report(recounted(case.document, case.journal)))
    except Refused as fault:
        return 1, "", f"fault: {fault}\n"
    return 0, "".join(line + "\n" for line in lines), ""


def by_audit(program: pathlib.Path, setup: pathlib.Path, journal: pathlib.Path) -> Printed:
    """The status, output, and error of `clock_auction audit`."""
    words = map(str, [program, "audit", "--setup", setup, "--journal", journal])
    done = subprocess.run([*words], capture_output=True, text=True, timeout=60)
    return done.returncode, done.stdout, done.stderr


def differences(audit: Audit, cases: list[Case]) -> list[tuple[Case, Printed, Printed]]:
    """The cases of which program and recount print different bytes, with both."""
    found = [(case, audit(case), by_recount(case)) for case in cases]
    return [each for each in found if each[1] != each[2]]
