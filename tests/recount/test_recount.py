"""`auction recount` prints what `clock_auction audit` prints, byte for byte, of random auctions.

There are 500 auctions, each as a journal: set-ups of both versions, sheets in steps, many requests
at one price point, and tie-breaking numbers for all pairs, some, or none.
"""
import json
import pathlib
from collections.abc import Callable

import pytest

from tests.lib.http import answer_to
from tests.lib.journals import journal_of
from tests.lib.paths import auction
from tests.lib.server import Server
from tests.recount.auctions import Played
from tests.recount.judged import AUCTIONS, Audit, auction_of, by_audit, by_recount
from tests.recount.spoiled import Case

SERVED = AUCTIONS[::21]
STARTED = AUCTIONS[::51]


def whole(game: Played) -> Case:
    """The journal of a whole auction."""
    return Case("whole", game.document, journal_of(game.document, game.texts))


@pytest.mark.parametrize("seed", AUCTIONS)
def test_audit_prints_what_the_recount_prints(seed: int, audit: Audit) -> None:
    case = whole(auction_of(seed)[0])
    status, output, error = audit(case)
    assert (status, error) == (0, "")
    assert output == by_recount(case)[1]


@pytest.mark.parametrize("seed", SERVED)
def test_server_refuses_with_the_code_of_the_recount(
    seed: int, server: Callable[..., Server], tmp_path: pathlib.Path
) -> None:
    game = auction_of(seed)[0]
    (tmp_path / "setup.json").write_bytes(game.document)
    port = server(tmp_path / "setup.json").ready().port
    for number in range(len(game.texts) + 1):
        for _, text, code in (each for each in game.refused if each[0] == number):
            assert json.loads(answer_to(port, text)[1])["code"] == code, text
        if number < len(game.texts):
            status, page = answer_to(port, game.texts[number])
            assert status == 200, (game.texts[number], page)


@pytest.mark.parametrize("missing", ["none", "setup", "journal"])
@pytest.mark.parametrize("seed", STARTED)
def test_command_prints_what_the_audit_prints(
    seed: int, missing: str, program: pathlib.Path, tmp_path: pathlib.Path
) -> None:
    case = whole(auction_of(seed)[0])
    setup, journal = tmp_path / "setup", tmp_path / "journal"
    for file, content in ((setup, case.document), (journal, case.journal)):
        if file.name != missing:
            file.write_bytes(content)
    done = auction("recount", setup, journal)
    assert (done.returncode, done.stdout, done.stderr) == by_audit(program, setup, journal)
