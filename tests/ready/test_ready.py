"""`auction ready` finds no fault of an auction that is ready, and each fault of one that is not."""
import pytest

from auction.commands.ready import CHECKS
from auction.ready.findings import Check
from tests.lib.paths import auction
from tests.ready.auction import Fault, ReadyAuction, applied
from tests.ready.faults import FAULTS, mode

pytestmark = [pytest.mark.needs("nginx", "openssl", "nft", "ip"), pytest.mark.root]
BY_NAME: dict[str, Check] = {check.name: check for check in CHECKS}


def said(ready: ReadyAuction) -> tuple[int, list[str]]:
    """The status of `auction ready`, and the lines that it prints on both streams."""
    done = auction("ready", ready.folder, "--space", "0.1")
    return done.returncode, (done.stdout + done.stderr).splitlines()


# ---- The command


def test_a_ready_auction_has_status_0_and_a_line_for_each_check(ready: ReadyAuction) -> None:
    status, lines = said(ready)
    assert status == 0, "\n".join(lines)
    assert all(line.startswith("ok ") for line in lines[:-1]), lines
    assert len(lines) == len(CHECKS) + 1
    assert lines[-1] == f"ready: {len(CHECKS)} checks found no fault"


def test_a_fault_has_status_1_and_a_line(ready: ReadyAuction) -> None:
    with applied(mode("key.pem", 0o644), ready):
        status, lines = said(ready)
    wanted = f"FAULT  secret files: {ready.folder}/key.pem has mode 644: chmod 600"
    assert status == 1
    assert [line for line in lines if line.startswith("FAULT")] == [wanted]
    assert lines[-1] == f"not ready: 1 of {len(CHECKS)} checks found a fault"


# ---- Each check


@pytest.mark.parametrize("name", BY_NAME)
def test_a_fault_of_each_check_is_tried(name: str) -> None:
    assert name in {row.check for row in FAULTS}


@pytest.mark.parametrize(
    ("name", "words", "fault"), FAULTS, ids=[f"{row.check}: {row.words}" for row in FAULTS]
)
def test_its_check_finds_the_fault_and_finds_none_without_it(
    ready: ReadyAuction, name: str, words: str, fault: Fault
) -> None:
    with applied(fault, ready):
        well, line = BY_NAME[name].finding(ready.auction())
    assert not well, line
    assert words in line
    assert line.startswith(f"FAULT  {name}: ")
    well, line = BY_NAME[name].finding(ready.auction())
    assert well, line


def test_the_auction_is_ready_after_all_faults(ready: ReadyAuction) -> None:
    status, lines = said(ready)
    assert status == 0, "\n".join(lines)
