"""Which files a copy has: all of an auction's folder, but what a machine has for itself."""
import dataclasses
import grp
import hashlib
import os
import stat
from collections.abc import Iterator
from pathlib import Path

# What each machine has for itself: what nginx writes, the gate, and the report for its own page.
OWN = {"tmp", "log", "gate", "inner", "operator", "past", "incoming"}
OWN_FILES = {"fence.json", "standby.json", "standby.files", "standby.lock", "state/standby.json"}
OWN_ENDS = (".new", ".lock", ".sock", ".pid")


@dataclasses.dataclass(frozen=True)
class Place:
    """A folder or a file: its mode, and the name of its group."""

    mode: int
    group: str

    @classmethod
    def of(cls, path: Path) -> "Place":
        found = path.stat()
        return cls(stat.S_IMODE(found.st_mode), group_of(found.st_gid))


@dataclasses.dataclass(frozen=True)
class File:
    """A file of a copy."""

    place: Place
    content: bytes
    digest: str


def group_of(number: int) -> str:
    try:
        return grp.getgrgid(number).gr_name
    except KeyError:
        return ""


def is_own(name: str) -> bool:
    """Whether a path, counted from the folder, is of this machine only."""
    return name.split("/")[0] in OWN or name in OWN_FILES or name.endswith(OWN_ENDS)


def paths_in(folder: Path, journal: Path) -> Iterator[tuple[str, Path, bool]]:
    """The folders and plain files of a copy, each with whether it is a folder. Folders come first.

    The journal is none of them: it goes its own way.
    """
    yield ".", folder, True
    for top, folders, names in os.walk(folder):
        place = Path(top)
        inner = [name for name in sorted(folders) if not is_own(named(folder, place / name))]
        folders[:] = [name for name in inner if not (place / name).is_symlink()]
        for name in folders:
            yield named(folder, place / name), place / name, True
        for name in sorted(names):
            path = place / name
            is_plain = path.is_file() and not path.is_symlink() and path != journal
            if is_plain and not is_own(named(folder, path)):
                yield named(folder, path), path, False


def named(folder: Path, path: Path) -> str:
    return path.relative_to(folder).as_posix()


class Listing:
    """The folders and files of a copy, read again only if they have changed."""

    def __init__(self, folder: Path, journal: Path) -> None:
        self.folder, self.journal = folder, journal
        self.known: dict[str, tuple[tuple[int, ...], str]] = {}

    def read(self) -> tuple[dict[str, Place], dict[str, tuple[Place, str]], dict[str, bytes]]:
        """All folders, all files by digest, and the contents of those that have changed."""
        folders, files, contents = dict[str, Place](), dict[str, tuple[Place, str]](), {}
        for name, path, is_folder in paths_in(self.folder, self.journal):
            try:
                if is_folder:
                    folders[name] = Place.of(path)
                    continue
                mark = mark_of(path)
                if self.known.get(name, ((), ""))[0] != mark:
                    contents[name] = path.read_bytes()
                    self.known[name] = mark, hashlib.sha256(contents[name]).hexdigest()
                files[name] = Place.of(path), self.known[name][1]
            except FileNotFoundError:
                continue  # it was removed just now
        self.known = {name: self.known[name] for name in files}
        return folders, files, contents


def mark_of(path: Path) -> tuple[int, ...]:
    """What changes if another file takes a file's place, or it is written to."""
    found = path.stat()
    return found.st_ino, found.st_size, found.st_mtime_ns, found.st_ctime_ns


def digests_in(folder: Path, journal: Path) -> dict[str, str]:
    """The SHA-256 of each file of a copy."""
    return {name: digest for name, (_, digest) in Listing(folder, journal).read()[1].items()}
