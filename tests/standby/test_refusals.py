"""After a take-over the numbers of a bidder's refused sheets continue, and none is given again."""
import json
import pathlib

import pytest

from auction.formats.receipts import Refusal
from auction.formats.setup import Setup
from auction.formats.signatures import new_key, secret_key
from auction.receipts import Refusals
from auction.standby.refusals import LOG, continue_numbers
from auction.standby.taking import Means, take_over
from tests.lib.paths import TOP
from tests.standby.folders import First, copy

pytestmark = pytest.mark.early
OFF = Means(is_off=True)


@pytest.fixture
def first(tmp_path: pathlib.Path) -> First:
    """The machine that serves, in round 1."""
    made = First(tmp_path / "a")
    made.bid("X", 1, 1)
    return made


def setup_of(machine: First) -> Setup:
    return Setup.read(machine.folder / "setup.json")


def refusal(machine: First, number: int, name: str = "X", by: str = "") -> Refusal:
    """A refusal of 30 November at 13:00, at the second of its number."""
    time = f"2026-11-30T13:00:{number:02d}Z"
    return Refusal(setup_of(machine).digest, name, by, number, time)


def page_of(one: Refusal, secret: bytes) -> str:
    return one.page(secret_key(secret).sign(one.message()))


def show(machine: First, one: Refusal, secret: bytes = b"") -> None:
    """Shows a bidder its refusal, signed by the committed key or by another one."""
    key = secret or (machine.folder / "kept/receipts.pem").read_bytes()
    machine.show(one.bidder, "refused.json", page_of(one, key))


def taken_over(machine: First, folder: pathlib.Path) -> pathlib.Path:
    copy(machine.folder, folder)
    take_over(folder, OFF)
    return folder


def refuse(second: pathlib.Path, name: str = "X") -> None:
    """nginx refuses one more sheet."""
    line = json.dumps({"bidder": name, "by": "", "second": "1796043700"})
    with open(second / LOG, "a", encoding="ascii") as log:
        log.write(line + "\n")


def found_in(second: pathlib.Path, machine: First) -> dict[str, Refusal]:
    """The last refusal of each bidder, as the second machine signs it."""
    found = Refusals(second / LOG, setup_of(machine)).read_on()
    return {one.bidder: one for one in found}


def test_the_last_refusal_stays_the_same(first: First, tmp_path: pathlib.Path) -> None:
    shown = {"X": refusal(first, 3, by="alice"), "Y": refusal(first, 7, "Y")}
    for one in shown.values():
        show(first, one)
    assert found_in(taken_over(first, tmp_path / "b"), first) == shown


def test_the_next_one_has_the_next_number(first: First, tmp_path: pathlib.Path) -> None:
    show(first, refusal(first, 3))
    second = taken_over(first, tmp_path / "b")
    refuse(second)
    refuse(second, "Y")
    numbers = {name: one.number for name, one in found_in(second, first).items()}
    assert numbers == {"X": 4, "Y": 1}


def test_the_higher_of_two_copies_counts(first: First, tmp_path: pathlib.Path) -> None:
    """Of the two folders of receipts, one may lack the last step."""
    show(first, refusal(first, 3))
    behind = first.folder / "receipts/.b/X"
    behind.mkdir(parents=True)
    secret = (first.folder / "kept/receipts.pem").read_bytes()
    (behind / "refused.json").write_text(page_of(refusal(first, 2), secret))
    assert found_in(taken_over(first, tmp_path / "b"), first)["X"].number == 3


@pytest.mark.parametrize("text", ["", "{}", "[]", "another key"])
def test_what_the_committed_key_has_not_signed_counts_not(
    first: First, tmp_path: pathlib.Path, text: str
) -> None:
    if text == "another key":
        show(first, refusal(first, 3), new_key())
    else:
        first.show("X", "refused.json", text)
    second = taken_over(first, tmp_path / "b")
    refuse(second)
    assert found_in(second, first)["X"].number == 1


def test_a_second_try_changes_no_number(first: First, tmp_path: pathlib.Path) -> None:
    show(first, refusal(first, 3))
    second = taken_over(first, tmp_path / "b")
    refuse(second)
    continue_numbers(second)
    assert found_in(second, first)["X"].number == 4


def test_a_log_that_ends_with_a_part_of_a_line_loses_none(
    first: First, tmp_path: pathlib.Path
) -> None:
    """Such as that of a machine that served before, and crashed."""
    show(first, refusal(first, 3))
    second = taken_over(first, tmp_path / "b")
    (second / LOG).write_text('{"bidder":"X","by')
    continue_numbers(second)
    refuse(second)
    assert found_in(second, first)["X"].number == 4


def test_nginx_writes_no_number() -> None:
    """So no request makes a number jump."""
    text = (TOP / "services/nginx.conf").read_text()
    (form,) = (line for line in text.splitlines() if "log_format refused" in line)
    assert "escape=json" in form
    assert json.loads(form.split("'")[1]).keys() == {"bidder", "by", "second"}
