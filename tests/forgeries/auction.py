"""An auction with a witness who saves what is published, and bidders who save their receipts."""
import json
import pathlib
import re
import shutil
from typing import Self

from auction.verify.case import Case
from auction.verify.findings import FAILED, findings
from tests.lib import setups
from tests.lib.journals import body_in, token_in
from tests.lib.served import Served, bid

BIDDERS = "XYZ"
# Sheets of three rounds as quantity and price. Supply is 3: in round 3 either X or Y loses a block,
# by tie-breaking number. In round 2 Y sends a sheet that its next one replaces.
ROUNDS = [
    [("X", 2, 100), ("Y", 1, 100), ("Z", 1, 100)],
    [("X", 2, 110), ("Y", 0, 105), ("Z", 1, 110), ("Y", 1, 110)],
    [("X", 1, 115), ("Z", 1, 121), ("Y", 0, 115)],
]
LAST = len(ROUNDS)
LINE = re.compile("(ok|FAILED|absent) +([a-z-]+): (.*)")
Failing = dict[str, str]


def failing(case: Case) -> Failing:
    """The checks that fail, each with its first words, without starting a process."""
    failed: Failing = {}
    for found in findings(case):
        if found.result == FAILED:
            failed.setdefault(found.subject, found.words)
    return failed


def place_of(texts: list[bytes], bidder: str, number: int) -> int:
    """The index in the journal of a bidder's first sheet for a round."""
    mark = f'"round":{number}'.encode()
    return next(
        place
        for place, text in enumerate(texts)
        if token_in(text) == bidder * 16 and mark in body_in(text)
    )


class WitnessedAuction(Served):
    """The operator's folder, and what others saved in it.

    A witness saves in `saved`, and each bidder in a file NAME.jsonl. `number` is the current round.
    """

    def __init__(self, program: pathlib.Path, folder: pathlib.Path, number: int = 1) -> None:
        bidders = [setups.bidder(name, name * 16, 4) for name in BIDDERS]
        setup = setups.setup([setups.product("A", supply=3, cap=2)], bidders)
        self.saved, self.receipts, self.number = folder / "saved", folder / "receipts", number
        super().__init__(program, folder, setup if number == 1 else None)

    def prepare(self, setup: object) -> None:
        super().prepare(setup)
        (self.saved / "rounds").mkdir(parents=True)
        (self.public / "rounds").mkdir()
        self.receipts.mkdir()
        self.witness("commitment.json")

    def branch(self, folder: pathlib.Path) -> "WitnessedAuction":
        """A copy of the auction up to now, with all its files, in another folder."""
        shutil.copytree(self.folder, folder, symlinks=True, dirs_exist_ok=True)
        return WitnessedAuction(self.program, folder, self.number)

    def witness(self, name: str) -> None:
        """Saves a published file for the witness."""
        shutil.copy(self.public / name, self.saved / name)

    def succeed(self, *words: object) -> None:
        """Runs a command of `auction`, which must succeed."""
        done = self.run(*words)
        assert done.returncode == 0, done

    # ---- Rounds

    def send(self, name: str, quantity: int, price: int) -> str:
        """Sends a sheet with a bidder's token, which is accepted. Returns its body."""
        return self.put(name * 16, self.number, bid(quantity, price))

    def say_sent(self, name: str, body: str) -> None:
        """The bidder keeps what it sent."""
        with open(self.folder / f"{name}.sent", "a", encoding="utf-8") as file:
            file.write(json.dumps({"sent": body}) + "\n")

    def bid(self) -> None:
        """Sends the sheets of the current round. Each bidder saves its receipts."""
        for name, quantity, price in ROUNDS[self.number - 1]:
            self.say_sent(name, self.send(name, quantity, price))
        words = [self.setup_file, self.journal_file, self.kept, self.receipts]
        self.succeed("receipts", *words, "--once")
        for name in BIDDERS:
            self.save_receipts(name)

    def save_receipts(self, name: str) -> None:
        """Writes a bidder's file of receipts."""
        names = {file: [int(part) for part in file.stem.split("-")] for file in self.files_of(name)}
        sent = self.folder / f"{name}.sent"
        files = [sent] if sent.exists() else []
        files += sorted(names, key=lambda file: names[file])
        lines = [file.read_text().strip() for file in (self.saved / "commitment.json", *files)]
        lines.insert(1, json.dumps({"bidder": name}))
        (self.folder / f"{name}.jsonl").write_text("".join(f"{line}\n" for line in lines))

    def files_of(self, name: str) -> list[pathlib.Path]:
        """The receipts of a bidder."""
        return list((self.receipts / name).glob("*.json"))

    def close(self) -> str:
        """Closes the current round with the operator's tool, and publishes it. Returns errors."""
        url = f"http://127.0.0.1:{self.server.port}"
        files = [self.folder / "operator.token", self.setup_file, self.journal_file, self.kept]
        done = self.run("close", url, *files, "10", "--yes", self.number)
        name = f"rounds/{self.number}.json"
        shutil.copy(self.kept / f"round-{self.number}.json", self.public / name)
        self.witness(name)
        self.number += 1
        return done.stderr

    def play(self, last: int) -> Self:
        """Plays the auction up to the closing of a round."""
        while self.number <= last:
            self.bid()
            assert self.close() == ""
        return self

    # ---- Verification

    def words(
        self, journal: bytes | None, published: pathlib.Path | None, receipts: str
    ) -> list[pathlib.Path]:
        """The words of `auction verify`.

        They are a journal, what someone saved, and the receipts of bidders, by their letters.
        """
        path = self.folder / "published.journal"
        path.write_bytes(self.journal_file.read_bytes() if journal is None else journal)
        files = [self.folder / f"{name}.jsonl" for name in receipts]
        return [self.setup_file, path, published or self.saved, *files]

    def failed(
        self,
        journal: bytes | None = None,
        published: pathlib.Path | None = None,
        receipts: str = "",
    ) -> Failing:
        """The checks that fail, each with its first words, without starting a process."""
        return failing(Case(*self.words(journal, published, receipts)))

    def shown(
        self,
        journal: bytes | None = None,
        published: pathlib.Path | None = None,
        receipts: str = "",
    ) -> Failing:
        """The checks that fail by `auction verify`, which says so in its lines and its status."""
        done = self.run("verify", *self.words(journal, published, receipts))
        assert done.stderr == ""
        *lines, last = done.stdout.splitlines()
        failed: Failing = {}
        for line in lines:
            found = LINE.fullmatch(line)
            assert found, line
            if found[1] == FAILED:
                failed.setdefault(found[2], found[3])
        assert last.startswith("NOT verified: " if failed else "verified: "), last
        assert done.returncode == int(bool(failed))
        return failed


def with_json(path: pathlib.Path, **changes: object) -> None:
    """Changes values in a file."""
    path.write_text(json.dumps({**json.loads(path.read_text()), **changes}))
