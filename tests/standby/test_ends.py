"""A machine of these tests ends with the process that made it, however that ends."""
import pathlib
import subprocess
import sys

import pytest

from tests.lib.folders import open_folder
from tests.lib.paths import TOP
from tests.lib.waiting import wait_for

pytestmark = [pytest.mark.needs("ip", "nsenter", "setpriv", "unshare"), pytest.mark.root]
MADE = """
import pathlib, sys, time
from tests.standby.machines import Machine
machine = Machine(pathlib.Path(sys.argv[1]), "a")
print(machine.first(), flush=True)
time.sleep(60)
"""


def is_there(number: int) -> bool:
    """Whether a process still runs."""
    try:
        return "State:\tZ" not in pathlib.Path(f"/proc/{number}/status").read_text()
    except OSError:
        return False


def test_a_machine_ends_with_a_test_that_is_killed() -> None:
    with open_folder() as folder:
        command = [sys.executable, "-c", MADE, str(folder)]
        with subprocess.Popen(command, cwd=TOP, stdout=subprocess.PIPE, text=True) as test:
            assert test.stdout
            first = int(test.stdout.readline())
            assert is_there(first)
            test.kill()
        wait_for("the machine has ended", lambda: not is_there(first), 20)
