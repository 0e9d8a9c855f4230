"""What a start of nginx needs after a crash."""
import os
import pathlib
import shutil
import signal
import subprocess
from collections.abc import Iterator

import pytest

from tests.lib.paths import PATHS
from tests.lib.site import Site
from tests.lib.waiting import wait_for
from tests.nginx.recorder import Recorder
from tests.nginx.requests import Bidder, get


def crash(site: Site) -> None:
    """Kills nginx and its workers at once, as a crash of the machine does."""
    process = pathlib.Path(f"/proc/{site.nginx.pid}/task/{site.nginx.pid}")
    workers = [int(worker) for worker in (process / "children").read_text().split()]
    for process_id in (site.nginx.pid, *workers):
        os.kill(process_id, signal.SIGKILL)
    site.nginx.wait(10)
    wait_for("its workers end", lambda: not any(is_running(one) for one in workers), 10)


def is_running(process_id: int) -> bool:
    """Whether a process is there, and has not ended."""
    try:
        text = pathlib.Path(f"/proc/{process_id}/stat").read_text()
    except FileNotFoundError:
        return False
    return text.rpartition(")")[2].split()[0] != "Z"


@pytest.fixture
def crashed(site: Site) -> Iterator[Site]:
    """nginx after a crash. It runs again at the end."""
    crash(site)
    yield site
    if site.nginx.poll() is not None:
        site.begin_nginx()


def test_a_crash_leaves_the_inner_doors_file_and_nginx_does_not_start(crashed: Site) -> None:
    nginx = shutil.which("nginx", path=PATHS) or "nginx"
    command = [nginx, "-p", str(crashed.folder), "-c", "nginx.conf", "-g", "daemon off;"]
    ran = subprocess.run(command, capture_output=True, text=True, timeout=30)
    assert ran.returncode == 1
    assert "inner/door.sock failed" in ran.stderr


def test_without_that_file_nginx_starts(crashed: Site, recorder: Recorder, bidder: Bidder) -> None:
    (crashed.folder / "inner/door.sock").unlink()
    crashed.begin_nginx()
    assert get(crashed, "/v1/me", bidder.token).status == 200
