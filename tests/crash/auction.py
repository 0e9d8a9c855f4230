"""An auction in a folder: its set-up, its servers, and what commands say of its journals."""
from dataclasses import dataclass
from pathlib import Path
from typing import Any

from tests.crash.requests import SETUP_TEXT
from tests.lib.runs import Run, run
from tests.lib.server import Server


@dataclass(frozen=True)
class Auction:
    """An auction of the tried program. Its folder is for the files of the tests."""

    program: Path
    folder: Path

    @property
    def setup(self) -> Path:
        """The file of the set-up document."""
        return self.folder / "setup.json"

    def journal_of(self, worker: int, content: bytes) -> Path:
        """The journal that only this worker uses, with these bytes.

        It is a new file each time. On ext4, a file that is written again is flushed to the disk.
        """
        file = self.folder / f"worker{worker}.journal"
        file.unlink(missing_ok=True)
        file.write_bytes(content)
        return file

    def server(self, journal: Path | None = None, **options: Any) -> Server:
        """A server, with or without a journal."""
        return Server(self.program, self.setup, journal, **options)

    def end_of(self, journal: Path, **options: Any) -> tuple[int, str]:
        """The status and the errors of a server that ends by itself."""
        with self.server(journal, **options) as server:
            return server.ended()

    def first_line(self, journal: Path) -> str:
        """The first line of a server that starts on a journal."""
        with self.server(journal) as server:
            return server.ready().lines[0]

    def audit(self, journal: Path) -> Run:
        """What `audit` prints of a journal."""
        return run(self.program, "audit", "--setup", self.setup, "--journal", journal)

    def list(self, journal: Path) -> Run:
        """What `journal` prints of a journal."""
        return run(self.program, "journal", "--setup", self.setup, "--journal", journal)


def auction_in(folder: Path, program: Path) -> Auction:
    """An auction in an empty folder."""
    auction = Auction(program, folder)
    auction.setup.write_bytes(SETUP_TEXT)
    return auction


def last_line(ended: Run) -> str:
    """The last line of a command's output, or its fault if it has no output."""
    return ended.output.splitlines()[-1] if ended.output else ended.errors.strip()
