"""The systemd units of services/, as systemd-analyze reads and rates them."""
import argparse
import json
import pathlib
import re
import subprocess

import pytest

from auction.commands import practice
from auction.commands.receipts import check_key
from auction.formats.setup import Setup
from auction.formats.signatures import new_key
from auction.standby import mark
from tests.lib.conducted import committed, small_setup
from tests.lib.paths import TOP

SERVER, NGINX = "clock-auction", "clock-auction-nginx"
CONDUCTOR, RECEIPTS = "clock-auction-conductor", "clock-auction-receipts"
DESK, PRACTICE = "clock-auction-desk", "clock-auction-practice"
UNITS = (SERVER, NGINX, CONDUCTOR, RECEIPTS, DESK)  # of an auction
ALL = (*UNITS, PRACTICE)
# What the units start, which need not be there: Debian's commands, the program, and the command.
PROGRAMS = re.compile(r"/usr/(bin/auction|bin/clock_auction|sbin/nft|sbin/nginx|bin/install)(?=\s)")
# The highest exposure that systemd may see, of 10. nginx's first process is root's, and serves the
# network.
MOST = {SERVER: 2.0, NGINX: 4.0, CONDUCTOR: 2.0, RECEIPTS: 2.0, DESK: 2.0, PRACTICE: 2.0}

DOCUMENT = json.dumps(small_setup())

pytestmark = [pytest.mark.early, pytest.mark.needs("systemd-analyze")]


def text_of(unit: str) -> str:
    """The text of a unit."""
    return (TOP / "services" / f"{unit}.service").read_text()


@pytest.fixture
def folder(tmp_path: pathlib.Path) -> pathlib.Path:
    """The units, with programs that are there, and the unit that an operator writes."""
    for unit in ALL:
        (tmp_path / f"{unit}.service").write_text(PROGRAMS.sub("/bin/true", text_of(unit)))
    (tmp_path / "srv-auction-tmp.mount").write_text(
        (TOP / "services/srv-auction-tmp.mount").read_text()
    )
    (tmp_path / "auction-alert@.service").write_text("[Service]\nExecStart=/bin/true\n")
    return tmp_path


def analyze(*words: object) -> tuple[int, str]:
    """The status of systemd-analyze, and all that it says."""
    command = ["systemd-analyze", *map(str, words)]
    ran = subprocess.run(command, capture_output=True, text=True, timeout=60)
    return ran.returncode, ran.stdout + ran.stderr


@pytest.mark.parametrize("unit", ALL)
def test_systemd_finds_no_fault_in_a_unit(folder: pathlib.Path, unit: str) -> None:
    assert analyze("verify", folder / f"{unit}.service") == (0, "")


@pytest.mark.parametrize("unit", ALL)
def test_a_units_exposure_is_low(folder: pathlib.Path, unit: str) -> None:
    status, said = analyze("security", "--offline=yes", folder / f"{unit}.service")
    rating = re.search(r"Overall exposure level for \S+: ([\d.]+) ", said)
    assert status == 0 and rating, said
    assert float(rating[1]) <= MOST[unit]


def test_nginx_starts_after_a_crash_left_its_socket() -> None:
    """The file is removed before each start."""
    lines = text_of(NGINX).splitlines()
    removed = lines.index("ExecStartPre=/bin/rm -f /srv/auction/inner/door.sock")
    started = lines.index("ExecStart=/usr/sbin/nginx -p /srv/auction -c nginx.conf")
    assert removed < started


@pytest.mark.parametrize("unit", ALL)
def test_a_unit_starts_with_the_machine_and_again_after_any_end(unit: str) -> None:
    lines = text_of(unit).splitlines()
    assert "WantedBy=multi-user.target" in lines and "Restart=always" in lines


def test_server_and_nginx_come_before_receipts() -> None:
    assert "Nice=10" in text_of("clock-auction-receipts").splitlines()


@pytest.mark.parametrize("service", ["run", "receipts", "desk"])
def test_one_unit_starts_each_command_that_runs(service: str) -> None:
    started = [
        line for unit in UNITS for line in text_of(unit).splitlines() if "/usr/bin/auction" in line
    ]
    assert sum(f"/usr/bin/auction {service} /srv/auction" in line for line in started) == 1


@pytest.mark.parametrize("unit", UNITS)
def test_no_unit_starts_on_a_standby_or_a_fenced_machine(unit: str) -> None:
    assert f"ConditionPathExists=!/srv/auction/{mark.NAME}\n" in text_of(unit)


def test_receipts_are_signed_though_the_unit_hides_the_chain(tmp_path: pathlib.Path) -> None:
    """A hidden file is there, and empty."""
    assert "InaccessiblePaths=-/srv/auction/kept/chain.json" in text_of(RECEIPTS)
    kept, public = tmp_path / "kept", tmp_path / "public"
    for name, content in committed(DOCUMENT).items():
        (tmp_path / name).parent.mkdir(exist_ok=True)
        (tmp_path / name).write_bytes(content)
    (kept / "chain.json").write_text("")
    (tmp_path / "setup.json").write_text(DOCUMENT)
    setup, secret = Setup.read(tmp_path / "setup.json"), (kept / "receipts.pem").read_bytes()
    check_key(kept, setup, secret)
    with pytest.raises(ValueError, match="is not the key of"):
        check_key(kept, setup, new_key())
    page = json.loads((public / "commitment.json").read_text())
    (public / "commitment.json").write_text(json.dumps({**page, "auction": "0" * 64}))
    with pytest.raises(ValueError, match="is of another set-up"):
        check_key(kept, setup, secret)


def test_only_the_access_log_is_rotated() -> None:
    """Lines of refused sheets are counted from the first one on, so their log stays whole."""
    text = (TOP / "services/debian/logrotate").read_text()
    (head,) = re.findall(r"(?m)^(/.*) \{$", text)
    assert head == "/srv/auction/log/access.log"
    assert "copytruncate" not in text and "*" not in head


# ---- The practice for everyone, which is no part of an auction


def test_the_practice_is_started_with_words_that_its_command_takes() -> None:
    """Its certificate and key are those that systemd reads for it."""
    text = text_of(PRACTICE)
    (words,) = re.findall(r"(?m)^ExecStart=/usr/bin/auction practice (.+)$", text)
    loaded = dict(re.findall(r"(?m)^LoadCredential=(\S+):(\S+)$", text))
    parser = argparse.ArgumentParser()
    practice.arguments(parser)
    given = parser.parse_args(words.split())
    hosted = practice.hosting(given, practice.options(given))
    files = {f"%d/{name}" for name in loaded}
    assert given.host and {str(hosted.certificate), str(hosted.key)} == files
    assert set(loaded.values()) == {"/srv/practice/cert.pem", "/srv/practice/key.pem"}


def test_the_practice_is_apart_from_an_auction_and_bounded() -> None:
    lines = text_of(PRACTICE).splitlines()
    wanted = ("DynamicUser=yes", "InaccessiblePaths=-/srv/auction", "MemoryMax=4G")
    assert set(wanted) <= set(lines) and any(line.startswith("TasksMax=") for line in lines)
    assert not any("clock-auction.service" in line for line in lines)
