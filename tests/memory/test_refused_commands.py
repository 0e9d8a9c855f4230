"""A command with a refused allocation prints `fault: memory`, and nothing else."""
import pathlib

import pytest

from tests.lib.http import reply_to
from tests.lib.server import Server
from tests.memory.requests import GRANULES, ONE, OPENING, OUT_OF_MEMORY, REPLAY
from tests.memory.served import TWO_ROUNDS
from tests.memory.shim import Run, Shim, nothing, refuse_each

pytestmark = pytest.mark.needs("cc")

COMMANDS = {
    "without a word": ([], ONE),
    "prices": (["prices", "--increment", "25"], GRANULES),
    "opening": (["opening"], OPENING),
    "replay": (["replay"], REPLAY),
}


def is_fault(run: Run[None], _: Run[None]) -> bool:
    """Whether a command ended with `fault: memory` and nothing else."""
    return run.end == OUT_OF_MEMORY


def refuse_each_of(shim: Shim, words: list[str], document: str = "") -> None:
    """Refuses each allocation of a command. There are at least 50."""
    wanted, wrong = refuse_each(
        lambda refused: shim.run(words, refused, nothing, document.encode()), is_fault
    )
    assert wrong == []
    assert wanted.end[0] == 0
    assert wanted.growths >= 50


@pytest.mark.parametrize(("words", "document"), COMMANDS.values(), ids=COMMANDS)
def test_command_reports_each_refused_allocation(
    shim: Shim, words: list[str], document: str
) -> None:
    refuse_each_of(shim, words, document)


@pytest.mark.parametrize("command", ["journal", "audit"])
def test_command_that_reads_a_journal_reports_each_refused_allocation(
    shim: Shim, program: pathlib.Path, tmp_path: pathlib.Path, command: str
) -> None:
    setup, journal = tmp_path / "setup.json", tmp_path / "journal"
    setup.write_text(TWO_ROUNDS.setup)
    with Server(program, setup, journal, connections=len(TWO_ROUNDS.requests)) as server:
        for text in TWO_ROUNDS.requests:
            reply_to(server.port, text.encode())
        assert server.ended() == (0, "")
    refuse_each_of(shim, [command, "--setup", str(setup), "--journal", str(journal)])
