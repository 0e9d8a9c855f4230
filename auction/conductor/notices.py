"""The chain of notices that the key of receipts signs: what is due in it follows from what is
stored, so each is written once, also after a kill between any two steps.
"""
import dataclasses
import json
from collections.abc import Iterator
from pathlib import Path
from typing import Any

from auction.formats.notices import (
    NAME,
    Entry,
    NoticesFault,
    appended,
    checked_entry,
    commitment_of,
    digest_of,
    entry_in,
    lines_of,
)

from . import disk, stored
from .clock import utc
from .increments import Rule
from .plan import Act, Plan
from .public import PublicFiles
from .settings import Folders
from .timetable import Window

Says = dict[str, Any]
Due = tuple[str, Says]  # a kind of notice, and what it says


class Notices:
    """The file of notices. Its writer holds the plan's lock."""

    def __init__(self, folders: Folders) -> None:
        self.path, self.key = folders.public / NAME, folders.kept / "receipts.pem"
        self.commitment = folders.public / "commitment.json"
        self.text, self.made = b"", list[Entry]()

    def entries(self) -> list[Entry]:
        """All entries. A NoticesFault names the line at which they are no chain."""
        text = self.path.read_bytes() if self.path.exists() else b""
        if text != self.text:
            try:
                self.made = chained(text, self.commitment.read_bytes())
            except NoticesFault as fault:
                raise NoticesFault(f"{self.path}: {fault}") from fault
            self.text = text
        return self.made

    def add(self, due: list[Due], now: float) -> None:
        """Adds entries in one write."""
        made, text = self.entries(), self.text
        commitment, key = self.commitment.read_bytes(), self.key.read_bytes()
        for kind, says in due:
            text = appended(text, commitment, key, kind, says, utc(now))
        disk.store(self.path, text.decode("ascii"), disk.PUBLIC)
        self.made = made + [entry_in(line) for line in lines_of(text)[len(made) :]]
        self.text = text

    def frozen(self, number: int) -> str | None:
        """The digest at which the sheets of a round are frozen, or None.

        A window that opens after it thaws them.
        """
        digest = None
        for entry in self.entries():
            if entry.says.get("round") == number and entry.kind in ("opened", "frozen"):
                digest = entry.says.get("digest")
        return digest


def chained(text: bytes, commitment: bytes) -> list[Entry]:
    """The entries of the file, each of which has the digest of the one before.

    So the last signature holds for all, and a start takes a short time after many notices.
    """
    lines, before = lines_of(text), digest_of(commitment)
    entries = list[Entry]()
    for number, line in enumerate(lines, 1):
        try:
            value: dict[str, Any] = {**json.loads(line), "signature": b""}
            entry = Entry(**value)
        except (ValueError, TypeError, RecursionError) as fault:
            raise NoticesFault(f"line {number}: it is no notice: {fault}") from fault
        if (entry.before, entry.number) != (before, number):
            raise NoticesFault(f"line {number}: it does not follow from the line before")
        entries.append(entry)
        before = digest_of(line)
    if entries:
        fixed = commitment_of(commitment)
        checked_entry(lines[-1], len(lines), entries[-1].before, fixed)
    return entries


@dataclasses.dataclass(frozen=True)
class Facts:
    """What is stored, and must be in the notices. `closed` has published rounds, from one on."""

    plan: Plan
    announcements: list[dict[str, Any]] = dataclasses.field(default_factory=list)
    draw: str = ""  # its words, or nothing
    closed: list[Says] = dataclasses.field(default_factory=list)
    ended: int = 0  # the last round, once it is published


def facts_of(plan: Plan, public: PublicFiles, folders: Folders, made: list[Entry]) -> Facts:
    """What is stored now. Published rounds that were noticed before are left out."""
    draw, last = folders.public / "draw.json", public.published()
    first = 1 + sum(entry.kind == "published" for entry in made)
    return Facts(
        plan,
        public.announcements(),
        stored.read(draw, draw=str)["draw"] if draw.exists() else "",
        [closed_round(public, folders.kept, number) for number in range(first, last + 1)],
        last if public.has_ended() else 0,
    )


def closed_round(public: PublicFiles, kept: Path, number: int) -> Says:
    """What the notice of a published round says."""
    digest = stored.read(public.round_file(number), digest=str)["digest"]
    body = stored.read(kept / f"closing-{number}.json")
    increment = body.get("increment", body.get("increments"))
    return {"digest": digest, "increment": increment, "round": number}


def due(facts: Facts, made: list[Entry]) -> list[Due]:
    """The notices that are due, in order."""
    said = [(entry.kind, entry.says) for entry in made]
    latest, known = dict(said), {text_of(one) for one in said}
    return [
        *(one for one in changed(facts.plan) if latest.get(one[0]) != one[1]),
        *(one for one in happened(facts) if text_of(one) not in known),
        *missing_acts(facts.plan.acts, said),
    ]


def text_of(one: Due) -> str:
    return json.dumps(one, sort_keys=True)


def changed(plan: Plan) -> Iterator[Due]:
    """Notices of which the last one counts."""
    windows = [
        {"closes": utc(window.closes), "opens": utc(window.opens), "round": number}
        for number, window in windows_of(plan)
    ]
    if windows:
        yield "timetable", {"windows": windows}
        yield "increments", {"rules": [rule_of(rule) for rule in plan.increments]}


def windows_of(plan: Plan) -> list[tuple[int, Window]]:
    """The windows by round. A round that a person closes without one has one of no length."""
    return [one for one in sorted(plan.windows.items()) if one[1].opens < one[1].closes]


def rule_of(rule: Rule) -> Says:
    """A rule of increments as a timetable has it."""
    return {key: value for key, value in dataclasses.asdict(rule).items() if value is not None}


def happened(facts: Facts) -> Iterator[Due]:
    """Notices that are made once."""
    if facts.draw:
        yield "draw", {"words": facts.draw}
    for number, window in windows_of(facts.plan):
        if window.opened is not None:
            yield "opened", {"opens": utc(window.opens), "round": number}
    for closed in facts.closed:
        yield "closed", closed
        yield "published", {"round": closed["round"]}
    if facts.ended:
        yield "ended", {"round": facts.ended}
    for one in facts.announcements:
        yield "announcement", {"key": one["key"], "text": one["text"]}


def missing_acts(acts: list[Act], said: list[Due]) -> Iterator[Due]:
    """The acts that no notice since their time has. The same act may have been done again."""
    for place, act in enumerate(acts):
        before = sum(one == act for one in acts[:place])
        if said[act.after :].count(act_of(act)) <= before:
            yield act_of(act)


def act_of(act: Act) -> Due:
    says: Says = {"what": act.what, "who": act.who}
    return "act", says if act.round is None else {**says, "round": act.round}
