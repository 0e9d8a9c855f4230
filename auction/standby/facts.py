"""What a take-over depends on, from the files of a copy."""
import dataclasses
import hashlib
import json
import re
from collections import Counter
from collections.abc import Iterator
from pathlib import Path
from typing import Any, Self

from auction.conductor.chain import Chain
from auction.conductor.settings import Settings, SettingsFault
from auction.formats.journal import Entry, Journal, JournalFault, token_in
from auction.formats.notices import NAME as NOTICES
from auction.formats.notices import read_notices
from auction.formats.setup import Setup
from auction.formats.signatures import public_of
from auction.formats.ties import Commitment

from . import mark
from .judge import Copy, End
from .listing import digests_in

OF_A_SHEET = re.compile(r"([0-9]+)-([0-9]+)\.json")
MANIFEST, FILES = "standby.json", "standby.files"
FAULTS = (
    *(JournalFault, SettingsFault, OSError, ValueError),
    *(LookupError, TypeError, AttributeError),
)
NOTHING = Copy(False, False, False, False, End(0, ""), (), frozenset(), 0, 0.0, 0.0)


def identity_of(folder: Path) -> str:
    """The digest of what no two auctions share: the set-up and the commitment."""
    document = Settings.read(folder).setup.read_bytes()
    return hashlib.sha256(document + (folder / "public/commitment.json").read_bytes()).hexdigest()


@dataclasses.dataclass(frozen=True)
class Manifest:
    """What a standby notes of its last whole pass."""

    auction: str
    host: str
    journal: str
    time: float  # by the first machine's clock
    ahead: float  # this machine's clock less the first one's
    length: int
    digest: str

    @classmethod
    def read(cls, folder: Path) -> Self | None:
        """The manifest of a folder, or None if no pass is whole."""
        try:
            return cls(**json.loads((folder / MANIFEST).read_bytes()))
        except (FileNotFoundError, ValueError, TypeError):
            return None

    def text(self) -> str:
        return json.dumps(dataclasses.asdict(self)) + "\n"


class Counted(Journal):
    """A journal, with how many sheets each bidder has in each round."""

    def __init__(self, path: Path, setup: Setup) -> None:
        super().__init__(path, setup)
        self.counts = Counter[tuple[str, int]]()

    def take(self, entry: Entry, text: bytes) -> None:
        if text.startswith(b"PUT "):
            self.counts[self.setup.tokens.get(token_in(text) or "", ""), self.round] += 1
        super().take(entry, text)


def journal_of(folder: Path) -> Counted:
    """The journal of a copy, read to its end."""
    settings = Settings.read(folder)
    journal = Counted(settings.journal, Setup.read(settings.setup))
    journal.read_on()
    return journal


def copy_of(folder: Path, saved: Path | None = None) -> Copy:
    """What a folder has, compared with itself. `saved` has public files that others have saved."""
    found = mark.Mark.read(folder)
    is_standby = found is not None and found.role == mark.STANDBY
    manifest = Manifest.read(folder)
    if manifest is None:
        return NOTHING._replace(is_standby=is_standby)
    copy = NOTHING._replace(
        is_standby=is_standby, is_whole=True, copied_at=manifest.time, ahead=manifest.ahead
    )
    try:
        journal = journal_of(folder)
        rounds = tuple(entry.digest for entry in journal.closings)
        return copy._replace(
            is_as_copied=is_as_copied(folder, journal.path),
            is_of_one_auction=is_of_one_auction(folder, manifest, journal),
            end=End(journal.end, journal.digest.hex()),
            rounds=rounds,
            published=frozenset(
                one for public in (folder / "public", saved) if public for one in published(public)
            ),
            sheets_without_record=sheets_without_record(folder, journal),
        )
    except FAULTS:
        return copy


def is_as_copied(folder: Path, journal: Path) -> bool:
    """Whether the files are those of the last whole pass."""
    return digests_in(folder, journal) == json.loads((folder / FILES).read_bytes())


def is_of_one_auction(folder: Path, manifest: Manifest, journal: Journal) -> bool:
    """Whether set-up, commitment, chain, key, plan, and published seeds belong together."""
    setup = journal.setup
    commitment = Commitment.read(folder / "public/commitment.json")
    chain = Chain.read(folder / "kept/chain.json", setup)
    key = public_of((folder / "kept/receipts.pem").read_bytes())
    plan = folder / "state/plan.json"
    planned = json.loads(plan.read_bytes())["auction"] if plan.exists() else manifest.auction
    seeds = {page["round"]: page["seed"] for page in pages_in(folder / "public")}
    return (
        identity_of(folder) == manifest.auction == planned
        and (commitment.auction, commitment.chain) == (setup.digest, chain.committed())
        and commitment.key == key
        and all(seed == seed_in_words(chain, number) for number, seed in seeds.items())
    )


def seed_in_words(chain: Chain, number: int) -> str | None:
    seed = chain.seed(number)
    return None if seed is None else seed.hex()


def pages_in(public: Path) -> Iterator[dict[str, Any]]:
    """The pages of published rounds in a folder."""
    for path in sorted((public / "rounds").glob("*.json")):
        yield json.loads(path.read_bytes())


def published(public: Path) -> Iterator[tuple[int, str]]:
    """Each round that a folder shows as published, with its digest."""
    for page in pages_in(public):
        yield page["round"], page["digest"]
    if (public / NOTICES).exists():
        commitment = (public / "commitment.json").read_bytes()
        for entry in read_notices(public / NOTICES, commitment):
            if entry.kind == "closed":
                yield entry.says["round"], entry.says["digest"]


def sheets_without_record(folder: Path, journal: Counted) -> int:
    """How many receipts are of sheets that the journal does not have."""
    lacking = 0
    for path in (folder / "receipts").rglob("*.json"):
        if found := OF_A_SHEET.fullmatch(path.name):  # others are of sheets that were refused
            number, sheet = int(found[1]), int(found[2])
            lacking += sheet > journal.counts[path.parent.name, number]
    return lacking
