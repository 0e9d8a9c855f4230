"""examples/bidder.py while a round is closing, and while no window is open."""
import json
import os
import pathlib
import re
import subprocess
import sys
import time
from collections.abc import Iterator

import pytest

from tests.browser.auction import Auction, X, Y, bid, example
from tests.browser.published import Published
from tests.lib.paths import EXAMPLES
from tests.lib.waiting import wait_for

pytestmark = pytest.mark.needs("nginx", "openssl")


@pytest.fixture
def auction(program: pathlib.Path) -> Iterator[Auction]:
    auction = Auction(program, example("one_product"))
    yield auction
    auction.stop()


class Bidder:
    """A running examples/bidder.py of X."""

    def __init__(self, auction: Auction, folder: pathlib.Path) -> None:
        (folder / "limits.json").write_text(json.dumps({"A": [130, 105]}))
        url = f"https://localhost:{auction.outside}"
        script = str(EXAMPLES / "bidder.py")
        self.said, self.errors = folder / "said", folder / "errors"
        with open(self.said, "w") as said, open(self.errors, "w") as errors:
            self.process = subprocess.Popen(
                [sys.executable, script, url, "limits.json", "--every", "0.2"],
                cwd=folder,
                stdout=said,
                stderr=errors,
                env={**os.environ, "TOKEN": X, "CA": str(auction.folder / "cert.pem")},
            )


@pytest.fixture
def bidder(auction: Auction, tmp_path: pathlib.Path) -> Iterator[Bidder]:
    bidder = Bidder(auction, tmp_path)
    yield bidder
    bidder.process.kill()
    bidder.process.wait()


@pytest.mark.parametrize(
    "has_time, words",
    [(True, "The round is closing; results appear at 20"), (False, "its results follow.")],
    ids=["with a time", "without"],
)
def test_a_closing_round_is_no_outage(
    auction: Auction, bidder: Bidder, has_time: bool, words: str
) -> None:
    wait_for("the first sheet", lambda: "sheet" in bidder.said.read_text(), 60)
    auction.put(Y, 1, bid(0, 1, 100))
    if has_time:
        Published(auction).timetable(1, (-60, -1, 30))
    auction.withhold()
    wait_for("it is said", lambda: "The round is closing" in bidder.errors.read_text(), 60)
    auction.close(1)
    time.sleep(2)
    assert "slip" not in bidder.said.read_text()
    auction.show()
    wait_for("the results", lambda: "slip" in bidder.said.read_text(), 60)
    lines = [line for line in bidder.errors.read_text().splitlines() if "receipt" not in line]
    assert len(lines) == 1 and words in lines[0], "once, and nothing of an outage"
    assert bidder.process.poll() is None


@pytest.mark.parametrize(
    "has_time, words",
    [(True, "the round opens at 20"), (False, "the round is not open.")],
    ids=["with a time", "without"],
)
def test_it_says_once_that_its_sheet_waits_for_a_window(
    auction: Auction, tmp_path: pathlib.Path, has_time: bool, words: str
) -> None:
    (auction.folder / "gate/open").unlink()
    if has_time:
        Published(auction).timetable(1, (60, 120, 150))
    bidder = Bidder(auction, tmp_path)
    try:
        wait_for("it is said", lambda: "Waiting" in bidder.errors.read_text(), 60)
        (auction.folder / "gate/open").touch()
        wait_for("the first sheet", lambda: "sheet" in bidder.said.read_text(), 60)
    finally:
        bidder.process.kill()
        bidder.process.wait()
    said = bidder.errors.read_text().splitlines()
    lines = [line for line in said if not re.search("receipt|signed refusal", line)]
    assert len(lines) == 1 and words in lines[0], lines
