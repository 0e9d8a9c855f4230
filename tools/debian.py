"""The Debian package of a checkout: its files, and how they become one file."""
import dataclasses
import gzip
import hashlib
import os
import pathlib
import re
import subprocess
import sys
import time

from tools import manual

PACKAGE = "clock-auction"
LIB, SHARE, DOC = "usr/lib/clock-auction", "usr/share/clock-auction", "usr/share/doc/clock-auction"
UNITS = "lib/systemd/system"
SHARED = ("web", "services", "schemas", "examples")
NOT_SHARED = re.compile(r"services/(debian/|.*\.(service|mount)$)")
# What dpkg reads: the names in DEBIAN/, and whether they are programs.
CONTROL = (
    *((name, 0o755) for name in ("config", "postinst", "prerm", "postrm")),
    ("templates", 0o644),
)
# Other files of services/debian/, and where they go.
PLACED = (
    ("sysusers.conf", f"usr/lib/sysusers.d/{PACKAGE}.conf"),
    ("logrotate", f"etc/logrotate.d/{PACKAGE}"),
    ("copyright", f"{DOC}/copyright"),
    ("overrides", f"usr/share/lintian/overrides/{PACKAGE}"),
)
COMMANDS = ("prices", "opening", "replay", "serve", "journal", "audit")


@dataclasses.dataclass(frozen=True)
class Source:
    """A checkout, its built program, and the commit that it is of."""

    top: pathlib.Path
    program: pathlib.Path
    commit: str
    epoch: int
    version: str
    author: str

    def date(self, form: str) -> str:
        return time.strftime(form, time.gmtime(self.epoch))


def git(top: pathlib.Path, *words: str) -> str:
    """What git prints about a checkout."""
    command = ["git", "-c", f"safe.directory={top}", "-C", str(top), *words]
    return subprocess.run(command, check=True, capture_output=True, text=True).stdout


def help_of(*command: object) -> str:
    """The help of a command, from either stream, with any status."""
    ran = subprocess.run(
        [*map(str, command), "--help"],
        capture_output=True,
        text=True,
        timeout=60,
        env={**os.environ, "COLUMNS": "78", "PYTHONDONTWRITEBYTECODE": "1"},
    )
    return (ran.stdout + ran.stderr).strip("\n")


def source_of(top: pathlib.Path, program: pathlib.Path) -> Source:
    """The source of a package. Its version rises with the time of the commit."""
    commit, epoch, author = git(top, "log", "-1", "--format=%H%n%ct%n%an <%ae>").splitlines()
    ran = subprocess.run(
        [program, "--version"], capture_output=True, text=True, timeout=60, check=False
    )
    number = (ran.stdout + ran.stderr).split()[-1]
    moment = time.strftime("%Y%m%d%H%M%S", time.gmtime(int(epoch)))
    changed = ".changed" if git(top, "status", "--porcelain", "-uno") else ""
    version = f"{number}+{moment}.{commit[:9]}{changed}"
    return Source(top, program, commit, int(epoch), version, author)


# ---- The files


def put(path: pathlib.Path, content: bytes, mode: int = 0o644) -> None:
    """Writes a file, and the folders above it."""
    path.parent.mkdir(parents=True, exist_ok=True)
    path.write_bytes(content)
    path.chmod(mode)


def copy_tracked(source: Source, name: str, to: pathlib.Path) -> None:
    """Copies the tracked files of a folder or file. Scripts get the interpreter of Debian."""
    for file in git(source.top, "ls-files", "-z", name).rstrip("\0").split("\0"):
        if NOT_SHARED.match(file):
            continue
        content = (source.top / file).read_bytes()
        is_script = content.startswith(b"#!")
        if is_script:
            content = content.replace(b"#!/usr/bin/env ", b"#!/usr/bin/", 1)
        is_run = is_script and os.access(source.top / file, os.X_OK)
        put(to / file, content, 0o755 if is_run else 0o644)


def put_gzip(path: pathlib.Path, text: str) -> None:
    put(path, gzip.compress(text.encode(), 9, mtime=0))


def changelog(source: Source) -> str:
    """The changelog that Debian asks for, with the commit."""
    head = f"{PACKAGE} ({source.version}) unstable; urgency=medium"
    date = source.date("%a, %d %b %Y %H:%M:%S +0000")
    return f"{head}\n\n  * Commit {source.commit}.\n\n -- {source.author}  {date}\n"


def put_manuals(source: Source, root: pathlib.Path) -> None:
    """Writes the man pages and the completions, from the help of both commands."""
    auction = [sys.executable, source.top / "auction/bin/auction"]
    whole = help_of(*auction)
    names = manual.commands_in(whole)
    helps = {name: help_of(*auction, name) for name in names}
    texts = {name: help_of(source.program, name) for name in COMMANDS}
    date = source.date("%Y-%m-%d")
    pages = (
        ("auction", 8, manual.page("auction", 8, date, whole, helps)),
        (
            "clock_auction",
            1,
            manual.page("clock_auction", 1, date, help_of(source.program), texts),
        ),
    )
    for name, section, text in pages:
        put_gzip(root / f"usr/share/man/man{section}/{name}.{section}.gz", text)
    completions = root / "usr/share/bash-completion/completions"
    put(completions / "auction", manual.completion("auction", helps).encode())
    put(completions / "clock_auction", manual.completion("clock_auction", texts).encode())


def make_tree(source: Source, root: pathlib.Path) -> None:
    """Makes all that is installed, and what dpkg reads, in a folder."""
    old = os.umask(0o022)
    put(root / "usr/bin/clock_auction", source.program.read_bytes(), 0o755)
    copy_tracked(source, "auction", root / LIB)
    put(root / LIB / "commit", f"{source.commit}\n".encode())
    (root / "usr/bin/auction").symlink_to("../lib/clock-auction/auction/bin/auction")
    for name in SHARED:
        copy_tracked(source, name, root / SHARE)
    bundled = root / SHARE / "schemas/openapi.json"
    subprocess.run([source.top / "tools/bundle", bundled], check=True, timeout=60)
    for unit in sorted((source.top / "services").glob("clock-auction*.service")):
        put(root / UNITS / unit.name, unit.read_bytes())
    for unit in sorted((source.top / "services").glob("*.mount")):
        put(root / UNITS / unit.name, unit.read_bytes())
    for name in ("README.md", "CHANGES.md", "docs"):
        copy_tracked(source, name, root / DOC)
    put_gzip(root / DOC / "changelog.gz", changelog(source))
    for name, place in PLACED:
        put(root / place, (source.top / "services/debian" / name).read_bytes())
    put_manuals(source, root)
    put_control(source, root)
    os.umask(old)


def put_control(source: Source, root: pathlib.Path) -> None:
    """Writes what dpkg reads, after all that is installed is there."""
    files = sorted(path for path in root.rglob("*") if path.is_file() and not path.is_symlink())
    sums = "".join(
        f"{hashlib.md5(path.read_bytes()).hexdigest()}  {path.relative_to(root)}\n"
        for path in files
    )
    size = sum((path.stat().st_size + 1023) // 1024 for path in files)
    folder, templates = root / "DEBIAN", source.top / "services/debian"
    text = (
        (templates / "control")
        .read_text()
        .format(version=source.version, size=size, author=source.author)
    )
    put(folder / "control", text.encode())
    put(folder / "md5sums", sums.encode())
    put(folder / "conffiles", f"/etc/logrotate.d/{PACKAGE}\n".encode())
    for name, mode in CONTROL:
        put(folder / name, (templates / name).read_bytes(), mode)


# ---- The package


def pack(source: Source, root: pathlib.Path, made: pathlib.Path) -> None:
    """Packs a tree. Times, owners, order, and compression depend on the commit only."""
    for path in [*root.rglob("*"), root]:
        if path.is_dir():
            path.chmod(0o755)
        os.utime(path, (source.epoch, source.epoch), follow_symlinks=False)
    subprocess.run(
        ["dpkg-deb", "--root-owner-group", "-Zgzip", "-z9", "--build", root, made],
        check=True,
        stdout=subprocess.DEVNULL,
        env={**os.environ, "SOURCE_DATE_EPOCH": str(source.epoch), "LC_ALL": "C", "TZ": "UTC"},
    )
