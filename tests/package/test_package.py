"""The Debian package: the same bytes each time, and all that an operator's machine needs."""
import gzip
import hashlib
import pathlib
import re
import subprocess

import pytest

from tests.lib.paths import TOP
from tests.package.conftest import Built, build

pytestmark = [
    pytest.mark.early,
    pytest.mark.needs("dpkg-deb", "git"),
    pytest.mark.xdist_group("package"),
]

PARTS = ("nginx", "conductor", "receipts", "desk", "practice")
UNITS = ["clock-auction", *(f"clock-auction-{part}" for part in PARTS)]
COMMANDS = ("init", "ready", "run", "status", "plan", "pause", "close", "record", "verify")
DEBIANS = ("/bin/sh", "/bin/rm", "/usr/bin/install", "/usr/sbin/nft", "/usr/sbin/nginx")


def listed(built: Built) -> list[tuple[str, str, str, str]]:
    """Mode, owner, moment, and path of each file of the package."""
    command = ["dpkg-deb", "-c", str(built.package)]
    ran = subprocess.run(
        command, check=True, capture_output=True, text=True, env={"TZ": "UTC", "PATH": "/usr/bin"}
    )
    found = []
    for line in ran.stdout.splitlines():
        mode, owner, _, date, clock, path = line.split(maxsplit=5)
        found.append((mode, owner, f"{date} {clock}", path))
    return found


def test_two_builds_are_the_same_bytes(built: Built, tmp_path: pathlib.Path) -> None:
    """With another umask, time zone, language, and folder for temporary files."""
    (tmp_path / "other").mkdir()
    elsewhere = {"TZ": "Asia/Tokyo", "LC_ALL": "C.UTF-8", "TMPDIR": str(tmp_path / "other")}
    again = build(tmp_path / "out", built.program, 0o077, **elsewhere)
    assert again.name == built.package.name
    assert again.read_bytes() == built.package.read_bytes()


def test_the_program_is_the_one_that_was_built(built: Built) -> None:
    installed = built.root / "usr/bin/clock_auction"
    assert installed.read_bytes() == built.program.read_bytes()


def test_every_file_is_roots_and_of_the_commits_moment(built: Built) -> None:
    command = ["git", "-C", TOP, "log", "-1", "--format=%cd", "--date=format-local:%Y-%m-%d %H:%M"]
    ran = subprocess.run(command, capture_output=True, text=True, env={"TZ": "UTC"}, check=True)
    moments = {(owner, moment) for _, owner, moment, _ in listed(built)}
    assert moments == {("root/root", ran.stdout.strip())}


def test_everyone_may_read_and_only_root_write_each_file(built: Built) -> None:
    modes = {mode for mode, *_ in listed(built)}
    assert modes <= {"drwxr-xr-x", "-rwxr-xr-x", "-rw-r--r--", "lrwxrwxrwx"}


@pytest.mark.parametrize(
    "name",
    [
        "usr/bin/clock_auction",
        "usr/bin/auction",
        "usr/lib/clock-auction/auction/cli.py",
        "usr/lib/clock-auction/commit",
        "usr/share/clock-auction/web/index.html",
        "usr/share/clock-auction/services/nginx.conf",
        "usr/share/clock-auction/services/clock-auction.nft",
        "usr/share/clock-auction/schemas/openapi.json",
        "usr/share/clock-auction/examples/two_products.json",
        "usr/share/doc/clock-auction/README.md",
        "usr/share/doc/clock-auction/CHANGES.md",
        "usr/share/doc/clock-auction/docs/operators.md",
        "usr/share/doc/clock-auction/copyright",
        "usr/share/man/man1/clock_auction.1.gz",
        "usr/share/man/man8/auction.8.gz",
        "usr/share/bash-completion/completions/auction",
        "usr/lib/sysusers.d/clock-auction.conf",
        "etc/logrotate.d/clock-auction",
        "lib/systemd/system/srv-auction-tmp.mount",
        *(f"lib/systemd/system/{unit}.service" for unit in UNITS),
    ],
)
def test_the_package_has_what_an_operators_machine_needs(built: Built, name: str) -> None:
    assert (built.root / name).is_file()


@pytest.mark.parametrize("name", ["crates", "tests", "tools", "edits", "bench", ".git"])
def test_the_package_has_nothing_for_engineers_only(built: Built, name: str) -> None:
    assert not [path for *_, path in listed(built) if f"/{name}/" in path]


def test_no_file_is_a_byte_code_of_python(built: Built) -> None:
    assert not [path for *_, path in listed(built) if "__pycache__" in path or ".pyc" in path]


def test_no_file_names_the_folder_of_the_checkout(built: Built) -> None:
    files = [path for path in built.root.rglob("*") if path.is_file() and not path.is_symlink()]
    own = built.root / "usr/bin/clock_auction"
    contents = {
        path: gzip.decompress(path.read_bytes()) if path.suffix == ".gz" else path.read_bytes()
        for path in files
        if path != own
    }
    assert not [path for path, content in contents.items() if str(TOP).encode() + b"/" in content]


def test_each_script_of_python_is_run_by_debians(built: Built) -> None:
    """Another Python on the path lacks Debian's modules."""
    first_lines = {
        path: path.read_bytes().partition(b"\n")[0]
        for path in built.root.rglob("*")
        if path.is_file() and path.read_bytes()[:2] == b"#!"
    }
    assert not [path for path, line in first_lines.items() if b"/usr/bin/env" in line]


@pytest.mark.parametrize("unit", UNITS)
def test_what_a_unit_starts_is_in_the_package_or_debians(built: Built, unit: str) -> None:
    text = (built.root / f"lib/systemd/system/{unit}.service").read_text()
    started = re.findall(r"(?m)^Exec(?:Start|StartPre|Reload)=[-+]*(/\S+)", text)
    assert started
    for path in started:
        assert path in DEBIANS or (built.root / path[1:]).exists(), path


@pytest.mark.parametrize("unit", UNITS)
def test_the_document_that_a_unit_names_is_in_the_package(built: Built, unit: str) -> None:
    text = (built.root / f"lib/systemd/system/{unit}.service").read_text()
    (name,) = re.findall(r"(?m)^Documentation=file:/(\S+)$", text)
    assert (built.root / name).is_file()


def test_version_names_the_commit_and_the_programs_sum(built: Built) -> None:
    command = built.root / "usr/bin/auction"
    path = {"PATH": f"{built.root}/usr/bin:/usr/bin"}
    ran = subprocess.run([command, "--version"], capture_output=True, text=True, env=path)
    commit = subprocess.run(
        ["git", "-C", TOP, "rev-parse", "HEAD"], capture_output=True, text=True, check=True
    )
    digest = hashlib.sha256(built.program.read_bytes()).hexdigest()
    assert (ran.returncode, ran.stderr) == (0, "")
    assert ran.stdout.splitlines()[1:] == [
        f"commit {commit.stdout.strip()}",
        f"program {built.root}/usr/bin/clock_auction",
        f"SHA-256 {digest}",
    ]


@pytest.mark.parametrize("command", COMMANDS)
def test_the_manual_has_the_help_of_each_command(built: Built, command: str) -> None:
    page = gzip.decompress((built.root / "usr/share/man/man8/auction.8.gz").read_bytes()).decode()
    assert f"\n.SS auction {command}\n" in page
    assert f"usage: auction {command}" in page.replace("\\-", "-")


@pytest.mark.parametrize(
    ("words", "wanted"),
    [
        (("auction", "rea"), ["ready"]),
        (("auction", "init", "--pro"), ["--products"]),
        (("auction", "close", "--w"), ["--without-sheets"]),
        (("clock_auction", "aud"), ["audit"]),
    ],
    ids=lambda value: "-".join(value) if isinstance(value, tuple) else "",
)
def test_bash_completes(built: Built, words: tuple[str, ...], wanted: list[str]) -> None:
    file = built.root / "usr/share/bash-completion/completions" / words[0]
    line = " ".join(f"'{word}'" for word in words)
    script = f""". '{file}'; COMP_WORDS=({line}); COMP_CWORD={len(words) - 1}
        _{words[0]}; printf '%s\\n' "${{COMPREPLY[@]}}" """
    ran = subprocess.run(["bash", "-c", script], capture_output=True, text=True, timeout=20)
    assert ran.stdout.split() == wanted


def test_a_removal_stops_each_unit(built: Built) -> None:
    words = (built.control / "prerm").read_text().split()
    stopped = {word.strip('"').removeprefix('units="') for word in words if ".service" in word}
    assert {f"{unit}.service" for unit in UNITS} == stopped


def test_an_upgrade_restarts_what_the_changes_say(built: Built) -> None:
    """nginx runs on, and the practice: its games would be lost."""
    text = (built.control / "postinst").read_text()
    restarted = set(re.findall(r"(clock-auction[a-z-]*)\.service", text))
    assert restarted == set(UNITS) - {"clock-auction-nginx", "clock-auction-practice"}
    changes = (TOP / "CHANGES.md").read_text()
    assert "restarts the server, the conductor, the desk, and the receipts" in changes


@pytest.mark.needs("shellcheck")
@pytest.mark.parametrize("name", ["config", "postinst", "prerm", "postrm"])
def test_shellcheck_finds_nothing_in_a_script_of_the_maintainer(built: Built, name: str) -> None:
    command = ["shellcheck", "-e", "SC1091", built.control / name]
    ran = subprocess.run(command, capture_output=True, text=True, timeout=60)
    assert ran.stdout == ""


@pytest.mark.needs("lintian")
def test_lintian_finds_no_error(built: Built) -> None:
    command = ["lintian", "--allow-root", "--tag-display-limit", "0", built.package]
    ran = subprocess.run(command, capture_output=True, text=True, timeout=240)
    assert not re.findall(r"(?m)^[EW]: .*", ran.stdout), ran.stdout
