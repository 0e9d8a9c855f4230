"""The first minutes of the README: its lines are typed in a fresh clone, with a compiler that has
the program already.
"""
import os
import pathlib
import re
import subprocess

import pytest

from tests.lib.paths import TOP
from tests.lib.ports import free_port

RT = """#!/bin/sh
# As `rt try --seconds S -- WORDS`, with a program that is compiled already.
shift 4
exec {} "$@"
"""


def first_lines() -> list[str]:
    """The lines of the first block of the quick start."""
    text = (TOP / "README.md").read_text().partition("## Quick start")[2]
    block = re.search(r"(?m)(?:^    .*\n)+", text)
    assert block
    return [line.strip() for line in block[0].splitlines()]


@pytest.mark.timeout(300)
def test_the_first_lines_compile_a_program_and_play_an_auction(
    program: pathlib.Path, tmp_path: pathlib.Path
) -> None:
    compile_it, practice = first_lines()
    clone, tools = tmp_path / "clone", tmp_path / "tools"
    subprocess.run(["git", "clone", "-q", TOP, clone], check=True, timeout=120)
    tools.mkdir()
    (tools / "rt").write_text(RT.format(program))
    (tools / "rt").chmod(0o755)
    words = f"--demo --quick --products 1 --bidders 2 --seed 5 --port {free_port(3)}"
    typed = f"{compile_it} && type clock_auction && {practice} {words} --folder {tmp_path}/new"
    ran = subprocess.run(
        ["bash", "-c", typed],
        cwd=clone,
        env={**os.environ, "PATH": f"{tools}:/usr/bin:/bin"},
        capture_output=True,
        text=True,
        timeout=240,
    )
    assert ran.returncode == 0, ran.stdout + ran.stderr
    said = ran.stdout + ran.stderr
    assert "is UNPROVED" in said
    assert f"clock_auction is {clone}/out/unproved/clock_auction" in said
    assert "A bidder that follows your values in every round would have won" in said
    assert "There is no built program" not in said
