"""A call with a refused allocation reports out of memory, and changes nothing.

The program in calls/ plays the scenarios. `rt try` runs it over a copy of the crates, without
proofs, with C functions that count allocations and refuse one.

It plays a scenario without a refusal, and then once for each allocation of the watched calls, with
that one refused. Exactly one call must then report out of memory, by its fault of that name or by
the bytes of the reply 503. Each reading call must return what it returned before. The repeated call
must lead to the result without a refusal.

A request that only reads a page must allocate once, for its reply, although its sender and a rival
have sheets in force. So an out-of-memory reply says nothing about the sheets.
"""
import os
import pathlib
import shutil
import subprocess
from typing import NamedTuple

import pytest

from tests.lib.paths import TOP
from tests.memory.scenarios import SCENARIOS, Scenario

SECONDS = 500
pytestmark = [
    pytest.mark.early,
    pytest.mark.slow,
    pytest.mark.needs("rt", "cc"),
    pytest.mark.timeout(SECONDS + 60),
]

SOURCES = pathlib.Path(__file__).with_name("calls")
NOT_NEEDED = ("clock_auction", "clock_files")


class Played(NamedTuple):
    """How often a scenario's watched calls allocated, and what went wrong with a refusal."""

    growths: int
    faults: str


def crate_in(work: pathlib.Path) -> pathlib.Path:
    """Copies the crates to a folder, and adds the program to them. Returns its folder."""
    left_out = shutil.ignore_patterns("out", "must-fail")
    shutil.copytree(TOP / "crates", work / "crates", ignore=left_out)
    crate = work / "crates" / "refusals"
    for folder in ("src", "specs", "proofs", "c"):
        (crate / folder).mkdir(parents=True)
    for path in SOURCES.glob("*.rs"):
        shutil.copy(path, crate / "src" / f"{path.stem}.rt")
    shutil.copy(SOURCES / "steering.c", crate / "c")
    for folder in ("specs", "proofs"):
        (crate / folder / "Lib.antt").touch()
    lines = [line for line in (TOP / "crates.txt").read_text().splitlines() if line[:1] != "#"]
    names = [line.partition(":")[0] for line in lines]
    below = [one for one in names if not one.startswith(NOT_NEEDED) and one[-6:] != "_tests"]
    (work / "crates.txt").write_text("\n".join([*lines, f"refusals: {' '.join(below)} anyhow", ""]))
    return crate


@pytest.fixture(scope="module")
def played(tmp_path_factory: pytest.TempPathFactory) -> dict[str, Played]:
    """What the program found, by the name of the scenario."""
    text = "\2".join("\1".join([one.name, *one.parts]) for one in SCENARIOS)
    tried = subprocess.run(
        ["rt", "try", "--seconds", str(SECONDS)],
        cwd=crate_in(tmp_path_factory.mktemp("calls")),
        input=text.encode(),
        capture_output=True,
        env={**os.environ, "RT_ALLOW_C": "refusals", "CC": "cc"},
    )
    assert tried.returncode == 0, (tried.stdout + tried.stderr).decode(errors="replace")[-5000:]
    rows = [line.split("\t") for line in tried.stdout.decode().splitlines()]
    return {name: Played(int(growths), faults) for name, growths, faults in rows}


@pytest.mark.parametrize("scenario", SCENARIOS, ids=lambda scenario: scenario.name)
def test_call_reports_each_refused_allocation(
    played: dict[str, Played], scenario: Scenario
) -> None:
    found = played[scenario.name]
    assert found.faults == ""
    assert found.growths == 1 if scenario.reads else found.growths >= 1


def test_scenarios_are_all_played_in_order(played: dict[str, Played]) -> None:
    assert list(played) == [scenario.name for scenario in SCENARIOS]
