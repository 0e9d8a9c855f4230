"""An auction whose sheets get receipts."""
import json
import os
import pathlib
import shutil
import subprocess
import sys

from auction.formats.setup import Setup
from auction.receipts import Sheets, Signer
from tests.lib import setups
from tests.lib.journals import journal_of
from tests.lib.paths import AUCTION
from tests.lib.served import Served, bid
from tests.lib.waiting import wait_for

NAMES = "XYZ"
SECONDS = 30


def publish(signer: Signer) -> int:
    """Looks, and shows what was found. Returns how many receipts that is."""
    signer.look()
    return signer.show()


class ReceiptsAuction(Served):
    """A server with one product, and the service that signs receipts, in one folder."""

    def __init__(self, program: pathlib.Path, folder: pathlib.Path) -> None:
        bidders = [setups.bidder(name, name * 16, 9) for name in NAMES]
        super().__init__(program, folder, setups.setup([setups.product("A", 9)], bidders))
        self.receipts, self.log = folder / "receipts", folder / "service.log"
        self.receipts.mkdir()
        self.service: subprocess.Popen[bytes] | None = None
        self.sent: dict[str, list[str]] = {name: [] for name in NAMES}

    # ---- The service

    def words(self) -> list[object]:
        """The words of `auction receipts`."""
        return ["receipts", self.setup_file, self.journal_file, self.kept, self.receipts]

    def begin_service(self) -> None:
        """Starts the service."""
        command = [sys.executable, str(AUCTION), *map(str, self.words())]
        with open(self.log, "ab") as log:
            self.service = subprocess.Popen(
                command, stdin=subprocess.DEVNULL, stdout=log, stderr=log
            )

    def kill_service(self) -> None:
        """Kills the service if it runs."""
        if self.service is not None:
            self.service.kill()
            self.service.wait()
            self.service = None

    def sign_once(self) -> tuple[int, str]:
        """Runs the service once: its status, and what it printed on both streams."""
        done = self.run(*self.words(), "--once")
        return done.returncode, done.stdout + done.stderr

    def signer(self, journal: pathlib.Path | None = None) -> Signer:
        """What the service does, in this process, with the server's journal or another one."""
        setup = Setup.read(self.setup_file)
        key = (self.kept / "receipts.pem").read_bytes()
        return Signer(Sheets(journal or self.journal_file, setup), key, self.receipts)

    def stop(self) -> None:
        self.kill_service()
        super().stop()

    # ---- Sheets and receipts

    def send(self, name: str, quantity: int, number: int = 1, price: int = 100) -> None:
        """Sends a bidder's sheet, which must be accepted."""
        self.sent[name].append(self.put(name * 16, number, bid(quantity, price)))

    def files(self) -> dict[str, bytes]:
        """Each receipt that is published, by bidder and number."""
        found = self.receipts.glob("[!.]*/*.json")
        return {str(file.relative_to(self.receipts)): file.read_bytes() for file in found}

    def remove_receipts(self) -> None:
        shutil.rmtree(self.receipts)
        self.receipts.mkdir()

    def await_receipts(self, *wanted: str) -> None:
        """Waits until exactly these receipts are published."""
        names = {f"{name}.json" for name in wanted}
        wait_for(f"the receipts {wanted}", lambda: set(self.files()) == names, SECONDS)

    # ---- What a bidder has

    def kept_lines(self, name: str) -> list[str]:
        """The lines of the file that a bidder keeps: the commitment, then each receipt."""
        pages = [json.loads(page) for file, page in sorted(self.files().items()) if name in file]
        pages = [{**page, "sent": sent} for page, sent in zip(pages, self.sent[name])]
        return [(self.public / "commitment.json").read_text().strip(), *map(json.dumps, pages)]

    def kept_file(self, name: str) -> pathlib.Path:
        """The file that a bidder keeps."""
        return self.written(f"{name}.receipts", self.kept_lines(name))

    def written(self, name: str, lines: list[str]) -> pathlib.Path:
        """A file of these lines in the folder."""
        file = self.folder / name
        file.write_text("".join(f"{line}\n" for line in lines))
        return file

    def forged(self, texts: list[bytes] | None = None, setup: bytes | None = None) -> bytes:
        """A journal of these requests, with all digests made again."""
        return journal_of(setup or self.document, self.texts() if texts is None else texts)

    def check(
        self, file: pathlib.Path, journal: bytes | None = None, **environment: str
    ) -> tuple[int, str]:
        """Runs `auction check-receipts` with the published commitment: its status, and what it
        printed on both streams.
        """
        copy = "--commitment", self.public / "commitment.json"
        return self.check_with(file, journal, *copy, **environment)

    def check_with(
        self,
        file: pathlib.Path,
        journal: bytes | None = None,
        *words: object,
        **environment: str,
    ) -> tuple[int, str]:
        """Runs `auction check-receipts` with further words."""
        published = self.folder / "published.journal"
        published.write_bytes(self.forged() if journal is None else journal)
        done = self.run(
            "check-receipts", file, published, *words, env={**os.environ, **environment}
        )
        return done.returncode, done.stdout + done.stderr
