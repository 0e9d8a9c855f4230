"""The conductor's settings and folders:

FOLDER/conductor.json, which the operator writes, and what the conductor makes next to it.
"""
import dataclasses
import grp
import json
import os
import re
import stat
from pathlib import Path
from typing import Self

from auction.formats.ties import MOST_TIES

from . import disk
from .observed import Limits, whole_ten

LONGEST = 10  # seconds that a closing may take
MOST_DRAIN = 60  # seconds; `auction verify` says LATE of sheets that are frozen later


class SettingsFault(Exception):
    """What is wrong in conductor.json."""


HALF_PUT_AWAY = "`auction clear` was stopped, and the auction is half put away: call it again"


def half_of(folder: Path) -> Path:
    """The folder of files that `auction clear` has put away so far."""
    return folder / "past" / "new"


def is_half_put_away(folder: Path) -> bool:
    """Whether `auction clear` was stopped, so some files of the last auction are here, some not."""
    return half_of(folder).exists()


def group_of_workers(configuration: Path) -> str:
    """The group of nginx's workers by its line `user USER [GROUP];`, or Debian's default."""
    try:
        found = re.search(
            r"(?m)^user\s+(\w[\w-]*)(?:\s+(\w[\w-]*))?\s*;",
            configuration.read_text(encoding="utf-8"),
        )
    except FileNotFoundError:
        found = None
    return (found[2] or found[1]) if found else "nogroup"


@dataclasses.dataclass(frozen=True)
class Settings:
    """The operator's settings. Paths count from the folder; times are in seconds."""

    url: str  # the operator's port of nginx, so that the conductor notices if nginx is gone
    setup: Path
    token: Path  # a file with the operator's token
    journal: Path  # the server's own
    # The server's port, at which the conductor counts connections on their way.
    port: int = 8105
    # From a window's end until the inner door shuts, for requests that began in time.
    drain: int = 10
    # From a window's end until the curtain lifts; 0 for no curtain.
    publish: int = 30
    # At the least from results to the next opening.
    between: int = 300
    # A window that begins within this time is not brought forward or shortened.
    notice: int = 900
    # The bidders' port of nginx, such as https://auction.example:8443, which is asked while a
    # window is open; "" for none. The file `authority` has the certificates to trust; "" for the
    # system's.
    bidders: str = ""
    authority: str = ""
    # Percent of a window that bidders may miss. If it is more, the round waits for a word.
    missed: int = 2
    # The group of nginx's workers, which read the report for the operator; "" asks nginx.conf.
    readers: str = ""

    @classmethod
    def read(cls, folder: Path) -> Self:
        """The settings of a folder. A SettingsFault says what is wrong in them."""
        path = folder / "conductor.json"
        try:
            value = json.loads(path.read_text(encoding="utf-8"))
            strange = value.keys() - {field.name for field in dataclasses.fields(cls)}
            if strange:
                raise ValueError(f"unknown key {', '.join(sorted(strange))}")
            files = {name: folder / value.pop(name) for name in ("setup", "token", "journal")}
            settings = cls(**files, **value)
        except FileNotFoundError as error:
            words = "`auction init` makes it, and docs/formats.md describes it"
            raise SettingsFault(f"there is no {path}: {words}") from error
        except (OSError, ValueError, AttributeError, KeyError, TypeError) as error:
            raise SettingsFault(f"{path}: {error!r}") from error
        times = {
            name: getattr(settings, name)
            for name in ("port", "drain", "publish", "between", "notice", "missed")
        }
        for name, seconds in times.items():
            if type(seconds) is not int or seconds < 0:
                raise SettingsFault(f"{path}: {name} must be a whole number, 0 or more")
        if settings.drain > MOST_DRAIN:
            raise SettingsFault(
                f"{path}: drain is at most {MOST_DRAIN}, beyond which a sheet is late"
            )
        least = settings.drain + Limits.freeze + LONGEST
        if 0 < settings.publish < least:
            raise SettingsFault(
                f"{path}: publish must be 0, or hold drain, the {Limits.freeze} s until sheets are "
                f"frozen, and a closing of {LONGEST} s: {least}"
            )
        return dataclasses.replace(
            settings,
            readers=settings.readers or group_of_workers(folder / "nginx.conf"),
            authority=settings.authority and str(folder / settings.authority),
        )

    @property
    def gap(self) -> int:
        """The least time from a window's end to the next opening, which holds drain, the longest
        closing, the curtain, and the time from results to the next opening.
        """
        return whole_ten(max(self.drain, self.publish) + LONGEST + self.between)

    def limits(self) -> Limits:
        """What a decision depends on."""
        share = self.missed / 100
        return Limits(self.drain, self.publish, LONGEST, missed=share, pairs=MOST_TIES)


@dataclasses.dataclass(frozen=True)
class Folders:
    """The folders that the conductor writes, in nginx's folder."""

    top: Path

    @property
    def gate(self) -> Path:
        """For nginx: when sheets are taken."""
        return self.top / "gate"

    @property
    def public(self) -> Path:
        """For everyone: timetable, announcements, closed rounds, winners."""
        return self.top / "public"

    @property
    def rounds(self) -> Path:
        return self.public / "rounds"

    @property
    def operator(self) -> Path:
        """For the operator's page, through nginx: the conductor's report."""
        return self.top / "operator"

    @property
    def kept(self) -> Path:
        """For the operator: closings and pages, as `auction close` stores them."""
        return self.top / "kept"

    @property
    def state(self) -> Path:
        """For the conductor: its plan, its locks, and its last look at the clock."""
        return self.top / "state"

    def make(self, readers: str) -> None:
        """Makes what is missing, with modes that do not depend on the umask, and brings what an
        earlier process wrote to the disk.
        """
        for folder, mode in (
            (self.gate, 0o755),
            (self.public, 0o755),
            (self.rounds, 0o755),
            (self.operator, 0o750),
            (self.kept, 0o700),
            (self.state, 0o700),
        ):
            disk.make_folder(folder, mode)
            disk.sync_folder(folder)
        if os.geteuid() == 0:  # else nginx's workers are this user
            self.give_to(readers)

    def give_to(self, readers: str) -> None:
        """Gives the folder of the report, and the files made in it, to this group."""
        try:
            group = grp.getgrnam(readers).gr_gid
        except KeyError as error:
            raise SettingsFault(f"conductor.json: no group is called {readers!r}") from error
        found = self.operator.stat()
        if found.st_gid != group or not found.st_mode & stat.S_ISGID:
            os.chown(self.operator, -1, group)
            self.operator.chmod(0o2750)
