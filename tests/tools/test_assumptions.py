"""tools/assumptions on what checks print: it lists libraries of the kit, and C functions."""
import pathlib
import subprocess

import pytest

from tests.lib.paths import TOP

pytestmark = pytest.mark.early

# What `rt ci` prints of two crates, shortened. clock_money has no crate of ours below it.
MONEY = """== clock_money
fn clock_money::price::raise: proved
statements core: modules loaded=40 checked=0
statements thiserror: modules loaded=0 checked=0
logic=proved functions=3 sum=dac8208d650f15bf statements=trusted
rt: clock_money proved
"""
DEVICE = """== clock_device
statements core: modules loaded=60 checked=0
statements std: modules loaded=7 checked=0
axioms libc: libc::read, libc::write (2 of the 393 declared)
logic=proved functions=9 sum=dac8208d650f15bf statements=trusted
rt: clock_device proved
"""
NOT_PROVED = MONEY.replace("logic=proved functions=3", "logic=not-proved")


def ran(folder: pathlib.Path, log: str, *crates: str) -> tuple[int, str]:
    file = folder / "log"
    file.write_text(log, encoding="utf-8")
    command = [TOP / "tools/assumptions", file, *crates]
    ended = subprocess.run(command, capture_output=True, text=True, timeout=60)
    return ended.returncode, ended.stdout


def test_lists_each_library_whose_statements_were_loaded(tmp_path: pathlib.Path) -> None:
    expected = (
        "clock_money: crates proved 1, libraries of the kit 1; modules of their statements:\n"
    )
    assert ran(tmp_path, MONEY, "clock_money") == (0, f"{expected}    core 40\n")


def test_a_number_is_the_largest_of_one_check(tmp_path: pathlib.Path) -> None:
    statements = "statements clock_device: modules loaded=5 checked=0\nlogic="
    terms = MONEY.replace("clock_money", "clock_terms").replace("logic=", statements)
    status, said = ran(tmp_path, MONEY + DEVICE + terms, "clock_terms")
    assert status == 0
    assert said.splitlines()[1:] == ["    core 60", "    std 7"]


def test_lists_the_c_functions_that_a_proof_reaches(tmp_path: pathlib.Path) -> None:
    _, said = ran(tmp_path, DEVICE, "clock_device")
    assert "libc: libc::read, libc::write (2 of the 393 declared)" in said


@pytest.mark.parametrize("log", ["", NOT_PROVED, MONEY.replace("== clock_money\n", "")])
def test_wants_a_proof_of_the_crate(tmp_path: pathlib.Path, log: str) -> None:
    status, said = ran(tmp_path, log, "clock_money")
    assert (status, said) == (1, "clock_money: the log has no proof of clock_money\n")


def test_wants_proofs_of_the_crates_below(tmp_path: pathlib.Path) -> None:
    status, said = ran(tmp_path, MONEY, "clock_terms")
    assert status == 1
    assert said.endswith("the log has no proof of clock_device, clock_terms\n")
