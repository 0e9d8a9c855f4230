"""Runs examples/bidder.py as a bidder, and asks a server what it has submitted."""
import json
import os
import subprocess
import sys
from pathlib import Path
from typing import Any

from tests.lib.http import answer_to, compact, text_of
from tests.lib.paths import EXAMPLES
from tests.lib.setups import OPERATOR
from tests.lib.waiting import wait_for

PATIENCE = 30
BIDDER = EXAMPLES / "bidder.py"
Bids = list[dict[str, int]]


def asked(port: int, line: str, token: str, value: object = None) -> Any:
    """The page of a request, which must be answered with 200."""
    body = b"" if value is None else compact(value)
    status, page = answer_to(port, text_of(line, token, body))
    assert status == 200, (line, status, page)
    return json.loads(page)


def put(port: int, token: str, number: int, bids: Bids) -> None:
    """Submits a sheet of a round."""
    asked(port, "PUT /v1/me/bids", token, {"bids": bids, "round": number})


def close(port: int, number: int) -> None:
    """Closes a round, without tie-breaking numbers."""
    asked(port, "POST /v1/close", OPERATOR, {"increment": 10, "round": number, "ties": []})


def bids_of(port: int, token: str) -> Bids | None:
    """The bids of a bidder's sheet in force, or None."""
    bids: Bids | None = asked(port, "GET /v1/me/bids", token)["bids"]
    return bids


def wait_for_sheet(port: int, token: str, other_than: Bids | None = None) -> None:
    """Waits until a bidder has a sheet in force other than `other_than`."""
    wait_for(
        f"a sheet of {token}", lambda: bids_of(port, token) != other_than, PATIENCE, every=0.05
    )


class Bidder:
    """The program of a bidder, in the background."""

    def __init__(
        self, url: str, token: str, limits: Path, every: float, **environment: str
    ) -> None:
        self.receipts = limits.with_suffix(".receipts")
        words = [url, str(limits), "--every", str(every), "--receipts", str(self.receipts)]
        self.child = subprocess.Popen(
            [sys.executable, str(BIDDER), *words],
            env={**os.environ, "TOKEN": token, **environment},
            stdout=subprocess.PIPE,
            stderr=subprocess.PIPE,
            text=True,
        )

    def ended(self) -> tuple[int, str, str]:
        """Waits until the bidder ends by itself. Returns its status, its output, and its errors.

        On a busy machine a receipt may come late, which is no error here.
        """
        output, errors = self.child.communicate(timeout=PATIENCE)
        lines = errors.splitlines(keepends=True)
        others = [line for line in lines if not line.startswith("no receipt within")]
        return self.child.returncode, output, "".join(others)

    def fault(self) -> str:
        """The errors of a bidder, which must end with status 1."""
        status, _output, errors = self.ended()
        assert status == 1, errors
        return errors

    def kill(self) -> None:
        """Ends the bidder, if it has not ended by itself."""
        if self.child.poll() is None:
            self.child.kill()
        self.child.communicate()
