"""What the operator fixes before round 1: the chain of seeds and the key of receipts, and what
everyone sees of both.
"""
import dataclasses
import time
from pathlib import Path

from auction.formats.journal import HEAD, Journal, JournalFault, head_of
from auction.formats.setup import Setup
from auction.formats.signatures import new_key, public_of
from auction.formats.strict import published
from auction.formats.ties import Commitment, Draw, TiesFault, checked_draw
from auction.mock import Kind, disagreement

from . import disk, stored
from .chain import Chain
from .clock import utc
from .gate import Gate
from .public import PublicFiles, is_opening
from .settings import HALF_PUT_AWAY, Folders, Settings, SettingsFault, is_half_put_away


class CommitmentFault(ValueError):
    """Why nothing is published."""


@dataclasses.dataclass(frozen=True)
class Places:
    """The files: two secret ones next to the closings, and two public ones. And the journal, which
    has a closing once the auction has begun.
    """

    kept: Path
    public: Path
    journal: Path | None = None

    @property
    def chain(self) -> Path:
        return self.kept / "chain.json"

    @property
    def key(self) -> Path:
        return self.kept / "receipts.pem"

    @property
    def commitment(self) -> Path:
        return self.public / "commitment.json"

    @property
    def draw(self) -> Path:
        return self.public / "draw.json"

    def is_begun(self, setup: Setup) -> bool:
        """Whether a round was closed, or may have been."""
        return any(self.kept.glob("closing*")) or self.has_closing(setup)

    def has_closing(self, setup: Setup) -> bool:
        """Whether the journal is of this set-up, and closes a round."""
        journal = journal_of(self.journal, setup)
        return journal is not None and bool(journal.closings)

    @property
    def top(self) -> Path:
        """The auction's folder."""
        return self.public.absolute().parent

    def has_opened(self) -> bool:
        """Whether round 1 takes sheets, or did: by the published timetable and announcements, the
        gate, and the journal, as far as they are there.
        """
        now, timetable = time.time(), self.public / "timetable.json"
        windows = stored.read(timetable, windows=list)["windows"] if timetable.exists() else []
        is_due = any(one["round"] == 1 and one["opens"] <= utc(now) for one in windows)
        keys = [one["key"] for one in PublicFiles(Folders(self.top)).announcements()]
        is_announced = any(is_opening(key, 1) for key in keys)
        return is_due or is_announced or Gate(self.top / "gate").takes_sheets(now)

    def has_sheets(self, setup: Setup) -> bool:
        """Whether somebody has bid, by the journal that is given or that conductor.json names."""
        has_settings = (self.top / "conductor.json").exists()
        named = Settings.read(self.top).journal if has_settings else None
        journal = journal_of(self.journal or named, setup)
        return journal is not None and bool(journal.sheets or journal.closings)


def journal_of(path: Path | None, setup: Setup) -> Journal | None:
    """The journal that is there, if it is of this set-up."""
    if path is None or not path.exists():
        return None
    with open(path, "rb") as file:
        if file.read(HEAD) != head_of(setup.document):
            return None
    journal = Journal(path, setup)
    journal.read_on()
    return journal


def make(
    places: Places, setup: Setup, has_ties: bool = True, draw: str | None = None
) -> Commitment:
    """Makes what is missing, and publishes it.

    What is there stays: it may be published. If this is killed, the next call continues.
    """
    if is_half_put_away(places.top):
        raise CommitmentFault(HALF_PUT_AWAY)
    disk.make_folder(places.kept, 0o700)
    disk.make_folder(places.public, 0o755)
    with disk.locked(places.kept / ".lock"):
        check_kind(places.commitment, setup)
        chain = chain_in(places, setup, has_ties, draw)
        if not places.key.exists():
            if places.commitment.exists() or places.is_begun(setup):
                raise CommitmentFault(
                    f"the auction has begun or is committed, and its key {places.key} is lost"
                )
            disk.store(places.key, new_key().decode("ascii"))
        key = public_of(places.key.read_bytes())
        is_mock = setup.kind is Kind.MOCK
        commitment = Commitment(setup.digest, chain.committed(), key, is_mock)
        publish(places, commitment)
        if chain.draw:
            added = Draw.added(places.commitment.read_bytes(), chain.draw)
            publish_once(places.draw, published(added.value()))
        return commitment


def check_kind(path: Path, setup: Setup) -> None:
    """A mock auction has no files of a real one, nor a real one those of a mock auction."""
    is_mock = Commitment.read(path).mock if path.exists() else setup.kind is Kind.MOCK
    if fault := disagreement(setup.kind, is_mock):
        raise CommitmentFault(fault)


def chain_in(places: Places, setup: Setup, has_ties: bool, draw: str | None) -> Chain:
    """The chain on disk, after it was made or has got the result of the draw."""
    if not places.chain.exists():
        if places.commitment.exists() or places.is_begun(setup):
            raise CommitmentFault(
                f"the auction has begun or is committed, and {places.chain} is lost"
            )
        chain = Chain.drawn(setup) if has_ties else Chain(setup.digest, None)
        chain.store(places.chain)
    chain = Chain.read(places.chain, setup)
    if (chain.secret is not None) != has_ties:
        raise CommitmentFault(
            f"{places.chain} was made {'with' if chain.secret else 'without'} tie-breaking numbers"
        )
    if draw in (None, chain.draw):
        return chain
    begun = places.is_begun(setup) or places.has_opened() or places.has_sheets(setup)
    if not has_ties or chain.draw or begun or not places.commitment.exists():
        raise CommitmentFault(
            "a draw is held once, after the end of the chain is published and before the first "
            "window opens, and only for tie-breaking numbers"
        )
    chain = dataclasses.replace(chain, draw=checked_draw(draw))
    chain.store(places.chain)
    return chain


def publish(places: Places, commitment: Commitment) -> None:
    """Publishes the commitment. One that is published stays."""
    if not places.commitment.exists() or Commitment.read(places.commitment) != commitment:
        publish_once(places.commitment, published(commitment.value()))


def publish_once(path: Path, text: bytes) -> None:
    """Publishes a file, which nothing replaces."""
    if not path.exists():
        disk.store(path, text.decode(), disk.PUBLIC)
    elif path.read_bytes() != text:
        raise CommitmentFault(
            f"{path} is published and says something else: use folders of their own"
        )


FAULTS = (CommitmentFault, JournalFault, SettingsFault, TiesFault, OSError, ValueError)
