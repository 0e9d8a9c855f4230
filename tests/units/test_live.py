"""The units under a live systemd, in a container with a network of its own.

    pytest tests/units --debian FOLDER --program PROGRAM

FOLDER has a small Debian. If it is missing, debootstrap makes it from a mirror, in some minutes.
So this is not part of the gate. inside.sh runs in the container, and names each thing that it sees.
"""
import pathlib
import re
import shutil
import subprocess
from collections import Counter
from typing import Any

import pytest

from tests.lib.paths import CHANGING, EXAMPLES, TOP

SCRIPT = pathlib.Path(__file__).with_name("inside.sh")
# What the script looks for, up to the first part that differs from run to run, and how often.
STEPS = Counter(re.findall(r'(?m)^ *(?:expect|within) "([^"$]+)', SCRIPT.read_text()))
MIRROR = "http://deb.debian.org/debian"
PACKAGES = "systemd,systemd-sysv,dbus,curl,openssl,python3,nftables,adduser"
# debootstrap does not find what this one needs.
MORE = ["apt-get", "-q", "install", "-y", "--no-install-recommends", "python3-cryptography"]
USERS = ("auction-nginx", "auction-server")
UNIT = """[Unit]
After=network.target
[Service]
Type=oneshot
ExecStart=/inside.sh
StandardOutput=file:/seen
StandardError=inherit
"""
ALERT = '[Service]\nExecStart=/bin/sh -c "echo %i >> /called"\n'
CONTAINER = (
    "--boot",
    "--private-network",
    "--register=no",
    "--keep-unit",
    "--console=passive",
)

pytestmark = [
    pytest.mark.root,
    pytest.mark.slow,
    pytest.mark.needs("debootstrap", "systemd-nspawn"),
    pytest.mark.timeout(1_200),
]


def install(program: pathlib.Path, root: pathlib.Path) -> None:
    """Installs the program, the command, and the units, where the package has them."""
    lib, auction, units = (
        root / path for path in ("usr/lib/clock-auction", "srv/auction", "etc/systemd/system")
    )
    for old in (
        lib,
        auction,
        root / "var/lib/private/clock_auction",
        units / "clock-auction.service.d",
    ):
        shutil.rmtree(old, ignore_errors=True)
    for name in ("seen", "called"):
        (root / name).unlink(missing_ok=True)
    for name in ("auction", "clock_auction"):
        (root / "usr/local/bin" / name).unlink(missing_ok=True)
        (root / "usr/bin" / name).unlink(missing_ok=True)
    for folder in (
        auction / "tmp/cache",
        units / "multi-user.target.wants",
    ):
        folder.mkdir(parents=True, exist_ok=True)
    (auction / "tmp/cache/page").write_text("of another auction")
    for part in ("auction", "services"):
        shutil.copytree(TOP / part, lib / part, ignore=CHANGING)
    for name in ("nginx.conf", "clock-auction.nft"):
        shutil.copy(TOP / "services" / name, auction)
    shutil.copy(EXAMPLES / "one_product.json", auction / "setup.json")
    (auction / "setup.json").chmod(0o600)
    shutil.copy(program, root / "usr/bin/clock_auction")
    (root / "usr/bin/auction").symlink_to("../lib/clock-auction/auction/bin/auction")
    shutil.copy(SCRIPT, root / "inside.sh")
    for unit in (TOP / "services").glob("*.service"):
        shutil.copy(unit, units)
    (units / "auction-alert@.service").write_text(ALERT)
    (units / "inside.service").write_text(UNIT)
    for name in ("clock-auction.service", "inside.service"):  # systemd starts them
        link = units / "multi-user.target.wants" / name
        link.unlink(missing_ok=True)
        link.symlink_to(f"../{name}")


@pytest.fixture(scope="module")
def seen(program: pathlib.Path, request: pytest.FixtureRequest) -> list[str]:
    """The lines that inside.sh printed in the container."""
    root = pathlib.Path(request.config.getoption("--debian")).absolute()
    if not (root / "etc/debian_version").exists():
        made: list[Any] = [
            "debootstrap",
            "--variant=minbase",
            f"--include={PACKAGES}",
            "bookworm",
            root,
            MIRROR,
        ]
        for command in (made, ["chroot", root, *MORE]):
            subprocess.run(command, check=True, stdout=subprocess.DEVNULL)
    for user in USERS:
        added = ["adduser", "--quiet", "--system", "--group", "--no-create-home", user]
        subprocess.run(["chroot", root, *added], check=True)
    install(program, root)
    # Its first process would outlive a container that is killed. So it is asked to end first.
    bounded = ["timeout", "-k", "5", "240", "systemd-nspawn", f"--directory={root}", *CONTAINER]
    with open(f"{root}.console", "wb") as console:
        subprocess.run(bounded, stdin=subprocess.DEVNULL, stdout=console, stderr=console)
    return (root / "seen").read_text().splitlines()


@pytest.mark.parametrize("step", STEPS)
def test_under_systemd(seen: list[str], step: str) -> None:
    """A step after one that failed is not seen either."""
    found = sum(line.startswith(f"seen: {step}") for line in seen)
    assert found >= STEPS[step], "\n".join(seen[-25:])


def test_the_run_came_to_its_end(seen: list[str]) -> None:
    assert seen[-1] == "the end", "\n".join(seen[-25:])
