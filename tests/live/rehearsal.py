"""Plays examples/rehearsal.json live with examples/bidder.py."""
import json
from pathlib import Path
from typing import Any

from tests.lib.paths import EXAMPLES
from tests.live.bidders import Bidder, asked, put, wait_for_sheet

DOCUMENT = json.loads((EXAMPLES / "rehearsal.json").read_text())
SETUP = DOCUMENT["setup"]
SCRIPTS = list(zip(SETUP["bidders"], DOCUMENT["scripts"], strict=True))
SINCERE = [bidder["name"] for bidder, script in SCRIPTS if script["kind"] == "sincere"]
REPORT = (EXAMPLES / "rehearsal.txt").read_text().splitlines()
ROUNDS = [line for line in REPORT if not line.startswith("won ")]
WON = {line.split()[1]: line for line in REPORT if line.startswith("won ")}


class Rehearsal:
    """A rehearsal at a server, whose sincere bidders are examples/bidder.py, at a URL.

    It has the lines of the rounds, and how each bidder ended, once it is played.
    """

    def __init__(self, folder: Path, port: int, url: str, every: float, **environment: str) -> None:
        self.folder, self.port = folder, port
        self.lines: list[str] = []
        self.ended: dict[str, tuple[int, str, str]] = {}
        self.bidders: dict[str, Bidder] = {}
        names = [product["name"] for product in SETUP["products"]]
        for bidder, script in SCRIPTS:
            name = bidder["name"]
            if name in SINCERE:
                limits = folder / f"{name}.json"
                limits.write_text(json.dumps(dict(zip(names, script["limits"], strict=True))))
                self.bidders[name] = Bidder(url, bidder["token"], limits, every, **environment)

    def play(self) -> None:
        """Plays all rounds, and waits until each bidder has ended."""
        for number, closing in enumerate(DOCUMENT["closings"], 1):
            self.wait_for_sheets(number)
            value = {**closing, "round": number}
            page = asked(self.port, "POST /v1/close", SETUP["operator"], value)
            self.lines += self.lines_of_round(number)
            if page["ended"]:
                break
        self.ended = {name: bidder.ended() for name, bidder in self.bidders.items()}

    def wait_for_sheets(self, number: int) -> None:
        """Submits the listed sheets of a round. Waits until each sincere bidder has one."""
        for bidder, script in SCRIPTS:
            sheets = script.get("sheets", [])
            if number <= len(sheets) and sheets[number - 1] is not None:
                put(self.port, bidder["token"], number, sheets[number - 1])
            if script["kind"] == "sincere":
                wait_for_sheet(self.port, bidder["token"])

    def lines_of_round(self, number: int) -> list[str]:
        """A closed round's results, as the report has them."""
        page = asked(self.port, f"GET /v1/rounds/{number}", SETUP["operator"])
        return [f"round {number}", *map(line_of_product, page["products"])]

    def __enter__(self) -> "Rehearsal":
        return self

    def __exit__(self, *_fault: object) -> None:
        """Ends the bidders that have not ended."""
        for bidder in self.bidders.values():
            bidder.kill()


def line_of_product(product: dict[str, Any]) -> str:
    """A product's results, as the report has them."""
    values = (product[key] for key in ("name", "start", "clock", "posted", "demand", "next"))
    return " ".join("-" if value is None else str(value) for value in values)
