"""`auction explain fault` has a cause and something to do for each fault line of the server."""
import pathlib
import re
import subprocess
import sys

import pytest

from auction.explain import endings
from tests.docs.texts import sections_of
from tests.lib.paths import AUCTION, TOP

pytestmark = pytest.mark.early


def words_of_the_server() -> set[str]:
    """The first word of each fault line of `serve`, as the reference lists them."""
    table = sections_of("formats.md")["Fault lines of the program"]
    rows = re.findall(r"(?m)^\| `([a-z_]+)[^|]*\| ([^|]*) \|", table)
    return {word for word, commands in rows if "serve" in commands or commands == "all"}


def test_each_fault_of_the_server_is_explained() -> None:
    words = words_of_the_server()
    assert len(words) == 14
    assert words | {"cut"} == endings.ENDINGS.keys()


@pytest.mark.parametrize("line", ["fault: setup_shape", "fault: setup_ties 3 4"])
def test_a_refused_set_up_has_a_command_that_lists_its_errors(line: str) -> None:
    assert endings.explained(line)[1] == "what to do: auction explain setup FILE"


@pytest.mark.parametrize("number", ["", " 56"])
@pytest.mark.parametrize("word", sorted(endings.ENDINGS.keys() - {"cut"}))
def test_a_fault_line_has_a_cause_and_an_action(word: str, number: str) -> None:
    said = endings.explained(f"fault: {word}{number}")
    found = endings.ENDINGS[word]
    assert said == [f"fault: {word}{number}: {found.cause}", f"what to do: {found.action}"]


def test_the_last_fault_counts() -> None:
    text = "cut 40 bytes at 88\njournal 1 ab\nfault: bind\nStopped.\n"
    assert endings.explained(text)[0].startswith("fault: bind: ")


@pytest.mark.parametrize("text", ["", "journal 1 ab\nready 8105\n", "a fault: bind", "faults: x"])
def test_without_a_fault_nothing_is_said(text: str) -> None:
    assert endings.explained(text) == []


def test_an_unknown_fault_is_not_guessed() -> None:
    (said,) = endings.explained("fault: of_a_later_version 3")
    assert "docs/formats.md" in said


@pytest.mark.parametrize("title", ["Rewrite the journal", "A damaged journal"])
def test_what_the_words_name_is_in_the_guide(title: str) -> None:
    assert any(title in one.action for one in endings.ENDINGS.values())
    assert f"\n### {title}\n" in (TOP / endings.GUIDE).read_text()


def test_the_command_reads_the_log(tmp_path: pathlib.Path) -> None:
    ran = subprocess.run(
        [sys.executable, AUCTION, "explain", "fault", "-"],
        input="ready 8105\nfault: journal_busy\n",
        capture_output=True,
        text=True,
        timeout=60,
    )
    assert (ran.returncode, ran.stderr) == (0, "")
    assert ran.stdout.splitlines()[0] == "fault: journal_busy: another server has the journal"


def test_the_unit_logs_what_the_last_fault_means() -> None:
    unit = (TOP / "services/clock-auction.service").read_text()
    (line,) = re.findall(r"(?m)^ExecStopPost=-\+.*\\\n(.*)$", unit)
    assert "_SYSTEMD_INVOCATION_ID=${INVOCATION_ID}" in line
    assert "| auction explain fault -" in line
