"""An auction that a server serves with a journal, in a folder of its own."""
import json
import pathlib
import subprocess
from typing import Any, Self

from tests.lib import setups
from tests.lib.http import answer_to, compact, text_of
from tests.lib.journals import texts_of
from tests.lib.paths import auction
from tests.lib.server import Server
from tests.lib.site import commit


def bid(quantity: int, price: int = 100, product: int = 0) -> dict[str, int]:
    """A bid, as a sheet has it."""
    return {"price": price, "product": product, "quantity": quantity}


class Served:
    """A server with its journal. Its folder also has the operator's token and the commitment.

    Without a set-up the folder has all these files already.
    """

    def __init__(
        self, program: pathlib.Path, folder: pathlib.Path, setup: object | None = None
    ) -> None:
        self.program, self.folder = program, folder
        self.setup_file, self.journal_file = folder / "setup.json", folder / "auction.journal"
        self.kept, self.public = folder / "kept", folder / "public"
        if setup is not None:
            self.prepare(setup)
        self.server = Server(program, self.setup_file, self.journal_file).ready()

    def prepare(self, setup: object) -> None:
        """Writes what the operator has before round 1."""
        self.folder.mkdir(parents=True, exist_ok=True)
        self.setup_file.write_text(json.dumps(setup))
        (self.folder / "operator.token").write_text(f"{setups.OPERATOR}\n")
        commit(self.folder)

    # ---- The server

    def restart(self) -> None:
        """Kills the server, and starts it again on its journal and its port."""
        self.server.kill()
        self.server = Server(
            self.program, self.setup_file, self.journal_file, port=self.server.port
        ).ready()

    def stop(self) -> None:
        """Ends the server if it runs."""
        if self.server.child.poll() is None:
            self.server.kill()

    def __enter__(self) -> Self:
        return self

    def __exit__(self, *_fault: object) -> None:
        self.stop()

    # ---- Requests

    def ask(self, line: str, token: str = "", value: object = None) -> Any:
        """The page that answers a request, whose body is a value as JSON."""
        body = None if value is None else compact(value)
        _, page = answer_to(self.server.port, text_of(line, token, body))
        return json.loads(page)

    def put(self, token: str, number: int, *bids: dict[str, int]) -> str:
        """Sends a sheet for a round, which must be accepted. Returns its body."""
        sheet = {"bids": bids, "round": number}
        page = self.ask("PUT /v1/me/bids", token, sheet)
        assert page.get("accepted") is True, page
        return compact(sheet).decode()

    def close_by_hand(
        self, number: int, increment: int = 10, ties: list[list[int]] | None = None
    ) -> None:
        """Closes a round by a request of the operator's, without a tool."""
        closing = {"increment": increment, "round": number, "ties": ties or []}
        page = self.ask("POST /v1/close", setups.OPERATOR, closing)
        assert page.get("closed") == number, page

    def round(self) -> int:
        """The current round, or the last one if the auction has ended."""
        number: int = self.ask("GET /v1/status")["round"]
        return number

    # ---- The journal and the tools

    @property
    def document(self) -> bytes:
        """The bytes of the set-up document."""
        return self.setup_file.read_bytes()

    def texts(self) -> list[bytes]:
        """The requests in the journal."""
        return [text for text, _ in texts_of(self.document, self.journal_file.read_bytes())]

    def run(self, *words: object, **options: Any) -> subprocess.CompletedProcess[str]:
        """Runs a command of `auction`, which must not fail in a way that nobody foresaw."""
        done = auction(*words, **options)
        assert "Traceback" not in done.stderr, done.stderr
        return done
