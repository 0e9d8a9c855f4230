"""Space on the disks, and the clock."""
import os
import subprocess

from .auction import Auction
from .findings import Check, ensure

LOG_SPACE, CACHE_SPACE = 500_000_000, 1_000_000_000
GB = 1_000_000_000


def free(path: object) -> int:
    """The bytes that are free on the file system of a path."""
    found = os.statvfs(str(path))
    return found.f_bavail * found.f_frsize


def space(auction: Auction) -> str:
    places = (
        ("the journal", auction.journal.parent, auction.space),
        ("nginx's cache", auction.folder / "tmp", CACHE_SPACE),
        ("the log", auction.folder / "log", LOG_SPACE),
    )
    for what, path, needed in places:
        ensure(
            free(path) >= needed,
            f"{free(path) / GB:.1f} GB are free for {what}, of {needed / GB:.1f} GB",
        )
    return ", ".join(f"{free(path) / GB:.1f} GB for {what}" for what, path, _ in places)


def file_systems(auction: Auction) -> str:
    """Whoever fills the log must not fill the journal's disk."""
    log = auction.folder / "log"
    image = auction.folder.with_name(f"{auction.folder.name}-log.img")
    own = (
        f"fallocate -l 2G {image} && mkfs.ext4 -q {image} && "
        f"echo '{image} {log} ext4 loop 0 0' >> /etc/fstab && "
        "systemctl daemon-reload && systemctl restart clock-auction-nginx"
    )
    ensure(
        os.stat(auction.journal).st_dev != os.stat(log).st_dev,
        f"the journal and the log are on one file system. To give the log its own: {own}",
    )
    return "the journal and the log are on two file systems"


def clock(_: Auction) -> str:
    ran = subprocess.run(
        ["timedatectl", "show", "-p", "NTPSynchronized", "--value"],
        capture_output=True,
        text=True,
        check=False,
    )
    advice = "apt install systemd-timesyncd, and wait a minute"
    ensure(ran.stdout.strip() == "yes", f"it is not synchronized by NTP: {advice}")
    return "synchronized by NTP"


CHECKS = [Check("space", space), Check("file systems", file_systems), Check("clock", clock)]
