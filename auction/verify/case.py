"""The files that are checked, and their content."""
import functools
import hashlib
import re
from collections.abc import Sequence
from pathlib import Path
from typing import Any

from auction.formats import notices, strict
from auction.formats.record import INDEX
from auction.formats.ties import Commitment
from auction.recount import rules as recount
from auction.recount.formats import Record, Setup, records_in, setup_in

COMMITMENT = "commitment.json"


class Failed(Exception):
    """Why a check fails: one text for each thing that is wrong."""


class Absent(Exception):
    """Why there is nothing to check."""


class Case:
    """A set-up document, a journal, the folder of what was published, and files of receipts.

    `commitment` and `lots` are copies that someone saved of these files, and `copies` are such
    copies of the notices. A check reads each when it needs it.
    """

    def __init__(
        self,
        setup: Path,
        journal: Path,
        published: Path,
        *receipts: Path,
        commitment: Path | None = None,
        copies: Sequence[Path] = (),
        lots: Path | None = None,
    ) -> None:
        self.paths, self.published, self.receipts = (setup, journal), published, receipts
        self.commitment, self.copies, self.lots = commitment, copies, lots

    @functools.cached_property
    def document(self) -> bytes:
        return self.paths[0].read_bytes()

    @functools.cached_property
    def journal(self) -> bytes:
        return self.paths[1].read_bytes()

    @functools.cached_property
    def setup(self) -> Setup:
        """The set-up of the document. Raises Refused if it is not valid."""
        return setup_in(self.document)

    @property
    def setup_digest(self) -> str:
        return hashlib.sha256(self.document).hexdigest()

    @functools.cached_property
    def records(self) -> list[Record]:
        """The whole records of the journal. Each follows from the one before."""
        return list(records_in(self.document, self.journal))

    @functools.cached_property
    def closings(self) -> list[str]:
        """The digest of each closing in the journal, whether or not the rules accept it."""
        return [record.digest for record in self.records if record.text.startswith(b"POST ")]

    @functools.cached_property
    def counted(self) -> recount.Recount:
        """The recount of the journal."""
        return recount.recounted(self.document, self.journal)

    @property
    def is_record(self) -> bool:
        """Whether what was published is a record, with its index."""
        return (self.published / INDEX).is_file()

    def text(self, name: str) -> bytes:
        """The bytes of a published file. Raises Absent if it does not exist."""
        path = self.published / name
        if not path.is_file():
            raise Absent(f"{path} is not there")
        return path.read_bytes()

    def json(self, name: str) -> Any:
        """The value of a file that must be written as the conductor writes it."""
        text = self.text(name)
        value = strict.value_in(text)
        if text != strict.published(value):
            raise Failed(f"{name} is not written as the conductor writes it")
        return value

    def commitment_text(self) -> bytes:
        """The bytes of the commitment: of the named copy, or of the published one."""
        if not (self.published / COMMITMENT).is_file():
            raise Failed(
                f"{self.published} has no {COMMITMENT}: nothing shows what was fixed before round 1"
            )
        return self.commitment.read_bytes() if self.commitment else self.text(COMMITMENT)

    @property
    def is_mock(self) -> bool:
        """Whether the commitment is of a mock auction."""
        return Commitment.of(strict.value_in(self.commitment_text())).mock

    @functools.cached_property
    def entries(self) -> list[notices.Entry]:
        """The notices. Raises NoticesFault if they are no chain from the commitment on."""
        return notices.notices_in(self.text(notices.NAME), self.commitment_text())

    @functools.cached_property
    def rounds(self) -> dict[int, dict[str, Any]]:
        """The published rounds, by number. Raises Failed if there is a file of another name."""
        files = list((self.published / "rounds").glob("*.json"))
        if strange := [file for file in files if not re.fullmatch("[1-9][0-9]{0,15}", file.stem)]:
            raise Failed(f"{strange[0]} is no round")
        pages = {int(file.stem): strict.value_in(file.read_bytes()) for file in files}
        if wrong := [number for number, page in pages.items() if not isinstance(page, dict)]:
            raise Failed(f"rounds/{wrong[0]}.json is no page of a round")
        return dict(sorted(pages.items()))
