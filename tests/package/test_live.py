"""The package in a Debian with systemd: installed, a whole auction, rebooted, upgraded, removed.

    pytest tests/package --debian FOLDER --program PROGRAM

FOLDER has a small Debian, as for tests/units. It is not part of the gate. inside.sh runs in it, and
three bidders bid in browsers outside.
"""
import pathlib
import re
import shutil
import subprocess
from collections import Counter
from collections.abc import Iterator
from typing import NamedTuple

import pytest

from tests.lib.namespaces import own_network
from tests.package.bidders import NAMES, Played, browsers, play
from tests.package.conftest import Built
from tests.package.machine import Machine

SCRIPT = pathlib.Path(__file__).with_name("inside.sh")
STEPS = Counter(re.findall(r'(?m)^ *(?:expect|within) "([^"$]+)', SCRIPT.read_text()))
UNIT = """[Unit]
After=multi-user.target
[Service]
Type=exec
ExecStart=/inside.sh
StandardOutput=append:/seen
StandardError=inherit
"""
DATA = ("srv/auction", "var/lib/private/clock_auction", "root/record")

# What an unproved program checks needs more addresses than the unit allows.
UNPROVED, ADDRESSES = b"__asan_init", "[Service]\nLimitAS=infinity\n"

pytestmark = [
    pytest.mark.root,
    pytest.mark.slow,
    pytest.mark.needs("debootstrap", "systemd-nspawn", "ip", "chromium", "chromedriver"),
    pytest.mark.timeout(1_800),
]


class Seen(NamedTuple):
    """The lines that inside.sh printed in the container, and what the bidders saw, or why not."""

    lines: list[str]
    played: Played | None
    fault: str

    def last(self) -> str:
        return "\n".join([*self.lines[-45:], self.fault])


def in_root(root: pathlib.Path, *words: str) -> None:
    """Runs a command in the Debian, with the network of this machine."""
    command = ["chroot", str(root), "env", "DEBIAN_FRONTEND=noninteractive", *words]
    ran = subprocess.run(command, capture_output=True, text=True, timeout=600)
    assert ran.returncode == 0, ran.stdout + ran.stderr


def upgrade_of(package: pathlib.Path, folder: pathlib.Path) -> pathlib.Path:
    """A copy of a package with a higher version."""
    root, made = folder / "upgrade", folder / "upgrade.deb"
    subprocess.run(["dpkg-deb", "-R", package, root], check=True)
    control = root / "DEBIAN/control"
    control.write_text(re.sub(r"(?m)^(Version: .*)$", r"\1+later", control.read_text()))
    subprocess.run(["dpkg-deb", "--root-owner-group", "-b", root, made], check=True)
    return made


def install(built: Built, root: pathlib.Path, folder: pathlib.Path) -> None:
    """Installs the package in the Debian, and lets systemd start inside.sh there."""
    for name in DATA:
        shutil.rmtree(root / name, ignore_errors=True)
    # Another test may have left its own.
    old = (
        "seen",
        "phase",
        "first",
        "ended",
        "usr/local/bin/auction",
        "usr/local/bin/clock_auction",
    )
    for name in old:
        (root / name).unlink(missing_ok=True)
    units = root / "etc/systemd/system"
    for link in units.glob("*.wants/clock-auction*"):
        link.unlink()
    shutil.copy(built.package, root / "clock-auction.deb")
    shutil.copy(upgrade_of(built.package, folder), root / "upgrade.deb")
    shutil.copy(SCRIPT, root / "inside.sh")
    in_root(root, "apt-get", "update", "-q")
    words = ["apt-get", "install", "-y", "-q", "--no-install-recommends"]
    in_root(root, *words, "./clock-auction.deb", "dbus", "curl", "iproute2", "logrotate", "procps")
    (units / "inside.service").write_text(UNIT)
    link = units / "multi-user.target.wants/inside.service"
    link.parent.mkdir(exist_ok=True)
    link.unlink(missing_ok=True)
    link.symlink_to("../inside.service")
    in_root(root, "systemctl", "disable", "nginx")
    more = units / "clock-auction.service.d/unproved.conf"
    more.unlink(missing_ok=True)
    if UNPROVED in built.program.read_bytes():
        more.parent.mkdir(exist_ok=True)
        more.write_text(ADDRESSES)


@pytest.fixture(scope="module")
def seen(
    built: Built, request: pytest.FixtureRequest, tmp_path_factory: pytest.TempPathFactory
) -> Iterator[Seen]:
    """A whole auction in the container, with its bidders outside."""
    root = pathlib.Path(request.config.getoption("--debian")).absolute()
    install(built, root, tmp_path_factory.mktemp("upgrade"))
    played, fault = None, ""
    with own_network(), browsers(tmp_path_factory.mktemp("browsers")) as bidders:
        machine = Machine(root)
        try:
            played = play(machine, bidders)
        except Exception as error:
            fault = f"the bidders: {error!r}"
        machine.end(not fault)
    yield Seen(machine.seen(), played, fault)


@pytest.mark.parametrize("step", STEPS)
def test_of_the_package(seen: Seen, step: str) -> None:
    """A step after one that failed is not seen either."""
    found = sum(line.startswith(f"seen: {step}") for line in seen.lines)
    assert found >= STEPS[step], seen.last()


def test_the_run_came_to_its_end(seen: Seen) -> None:
    assert seen.lines[-1] == "the end", seen.last()


@pytest.mark.parametrize("name", NAMES)
def test_each_bidder_reads_what_it_has_won(seen: Seen, name: str) -> None:
    """Product A is sold at the price at which X reduced, and B at its opening price."""
    price = {"X": 106, "Y": 106, "Z": 100}[name]
    assert seen.played, seen.last()
    assert f"You won 1 block for ${price}." in seen.played.ends[name]


@pytest.mark.parametrize("name", NAMES)
def test_no_browser_logs_a_fault(seen: Seen, name: str) -> None:
    assert seen.played, seen.last()
    assert seen.played.faults[name] == []
