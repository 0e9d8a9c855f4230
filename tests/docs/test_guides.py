"""Each `$` line of the tutorial and the guides is typed, and prints what the document shows.

Lines that change the machine (packages, services) are counted and not typed.
"""
import json
import pathlib
import re
import subprocess
import time
from collections.abc import Callable

import pytest

from tests.docs.shell import OPERATOR, Bids, Shell, rows_of
from tests.docs.texts import CARD_ROUND, FIRST, MACHINE, ROUNDS, sections_of, text_of
from tests.lib.documents import typed_lines
from tests.lib.http import compact
from tests.lib.paths import TOP
from tests.lib.waiting import wait_for

NEEDED = pytest.mark.needs("nginx", "openssl", "curl")
TOKENS = ("setup.json", "operator.token", "operator.head", "bidders.map", "sheet.conf")
SECRETS = ("key.pem", "auction.journal", "log/access.log", "kept/chain.json", "kept/receipts.pem")

# The steps of docs/auditors.md before the end; the second one continues if there is a timetable.
SAVE_COMMITMENT = "1. Save the commitment before round 1"
SAVE_ROUNDS, TIMETABLE = "2. Save each round when it is published", "If there is a timetable"

StartShell = Callable[[], Shell]


@pytest.mark.needs("curl")
def test_tutorial(shell: StartShell) -> None:
    shell().type_text(text_of("tutorial.md"))


@pytest.mark.needs("curl")
def test_rehearsing_and_closing_by_hand(shell: StartShell) -> None:
    """The sections of docs/operators.md and docs/deployment.md that need no nginx."""
    sections, typed = sections_of("operators.md") | sections_of("deployment.md"), shell()
    (typed.folder / "work/operator.head").write_text(f"authorization: Bearer {OPERATOR}\n")

    def second_round() -> None:
        typed.play(ROUNDS[1], 2)
        typed.close(2, increment=10)

    typed.type_text(sections["Rehearse"])
    picture = (typed.folder / "work/rehearsal.svg").read_bytes()
    assert picture == (TOP / "docs/pictures/rehearsal.svg").read_bytes()
    typed.type_text(sections["The server"])
    first_round = ("/v1/close", lambda: typed.play(ROUNDS[0], 1))
    typed.type_text(sections["Closing by hand"], [first_round])
    typed.type_text(sections["Results by hand"], [("/v1/results", second_round)])
    typed.type_text(sections["The journal"])


class Machine:
    """The machine of docs/operators.md, with its card, and docs/auditors.md."""

    def __init__(self, shell: Shell) -> None:
        self.shell, self.auction = shell, shell.folder / "auction"

    def text(self) -> str:
        """What leads from nothing to a verified auction."""
        guide, card = sections_of("operators.md"), text_of("card-operator.md")
        audit = sections_of("auditors.md") | sections_of("auditors.md", "###")
        receipts = audit["3. If you bid, save your receipts"].partition("\n## ")[0]
        parts = (
            guide["Set up one machine"],
            audit[SAVE_COMMITMENT],
            guide["Close a round by hand"],
            audit[SAVE_ROUNDS].partition(TIMETABLE)[0],
            receipts,
            card,
            guide["After the auction"],
            audit["After the end"],
        )
        return "\n".join(parts)

    def moves(self) -> list[tuple[str, Callable[[], object]]]:
        """What others do, and before which line."""
        return [
            ("/v1/status", self.shell.start_services),
            ("auction close", self.first_round),
            ("auction close", lambda: self.shell.play(MACHINE[1], 2)),
            ("auction record", self.end),
        ]

    def curl(self, words: str) -> tuple[str, int]:
        """Asks nginx. Returns what curl prints, and its status."""
        return self.shell.say(self.shell.put_elsewhere(f"curl -s --cacert cert.pem {words}"))

    def first_round(self) -> None:
        """Submits X's sheet through nginx, and Y's and Z's. Checks secret files, log, and pages.

        Closings wait for no drain and no curtain.
        """
        path = self.auction / "conductor.json"
        path.write_text(json.dumps({**json.loads(path.read_text()), "drain": 0, "publish": 0}))
        reply = put_through_nginx(self.shell, "X", FIRST["X"])
        assert reply == {"accepted": True, "bids": 1, "round": 1}
        wait_for("X's receipt", (self.auction / "receipts/X/1-1.json").exists, 20)
        self.shell.play(MACHINE[0], 1)
        for name in (*TOKENS, *SECRETS):
            mode = (self.auction / name).stat().st_mode & 0o777
            assert mode == 0o600, f"{name} has mode {mode:o}"
        log = (self.auction / "log/access.log").read_text()
        found = ('"bidder":"X"' in log, "XXXXXXXXXXXXXXXX" in log, OPERATOR in log)
        assert found == (True, False, False), "a name and no token in the log"
        page, _ = self.curl("https://localhost:8443/ | head -n 1")
        assert page == (TOP / "web/index.html").read_text().splitlines()[0]

    def end(self) -> None:
        """Stops what the units started, once X's second receipt is fetched."""
        self.second_receipt()
        _, status = self.shell.say("nginx -p $PWD -c nginx.conf -s stop")
        assert status == 0
        self.shell.say("kill %1 %2")

    def second_receipt(self) -> None:
        """Saves round 2, and fetches the receipt of X's sheet as soon as it is published."""
        page = "https://localhost:8443/public/rounds/2.json"
        _, status = self.curl(f"-f -o saved/rounds/2.json {page}")
        assert status == 0
        wait_for("X's second receipt", (self.auction / "receipts/X/2-1.json").exists, 20)
        _, status = self.curl(
            "-H @x.head https://localhost:8443/receipts/2/1.json >> receipts.jsonl"
        )
        assert status == 0
        (product, quantity, price), *_ = MACHINE[1]["X"]
        bids = [{"price": price, "product": product, "quantity": quantity}]
        sent = compact({"bids": bids, "round": 2}).decode()
        with open(self.auction / "receipts.jsonl", "a", encoding="utf-8") as file:
            file.write(json.dumps({"sent": sent}) + "\n")


def put_through_nginx(shell: Shell, letter: str, bids: Bids) -> dict[str, object]:
    """Submits a sheet of round 1 through nginx, in the folder of the auction. Returns the reply."""
    head = f"{letter.lower()}.head"
    (shell.folder / "auction" / head).write_text(f"authorization: Bearer {letter * 16}\n")
    body = compact({"bids": rows_of(bids), "round": 1}).decode()
    words = f"-s --cacert cert.pem -H @{head} -X PUT --data-binary '{body}'"
    line = f"curl {words} https://localhost:8443/v1/me/bids"
    page: dict[str, object] = json.loads(shell.say(shell.put_elsewhere(line))[0])
    return page


@NEEDED
def test_operators_guide_leads_from_nothing_to_a_verified_auction(shell: StartShell) -> None:
    machine = Machine(shell())
    machine.shell.say("umask 077")  # as on hardened machines
    machine.shell.type_text(machine.text(), machine.moves())


def test_mock_auction_is_made_and_put_away(shell: StartShell) -> None:
    typed, guide = shell(), sections_of("operators.md")
    typed.type_text(guide["Mock auction"])
    for command, output in typed_lines(guide["Set up one machine"]):
        if command.startswith("auction init"):
            typed.type(command, output)
    past, made = typed.folder / "mock/past", typed.folder / "auction"
    found = [path for folder in (past, made) for path in folder.rglob("commitment.json")]
    assert [json.loads(path.read_text()).get("mock", False) for path in found] == [True, False]
    assert sorted(path.name for path in past.rglob("letters/*")) == ["X.txt", "Y.txt", "Z.txt"]


def times_of_day(first: int) -> dict[str, str]:
    """The times of the timetable in docs/operators.md, each with the time to type instead.

    These are two windows of forty seconds, which open soon.
    """
    early = 1 <= time.gmtime(first).tm_hour <= 22  # no window may cross midnight
    zone, hours = ("UTC", 0) if early else ("Etc/GMT-12", 12)
    local = [time.gmtime(first + after + 3600 * hours) for after in (0, 40, 100, 140)]
    clocks = [time.strftime("%H:%M:%S", moment) for moment in local]
    typed = {
        "America/New_York": zone,
        '"2026-12-01"': time.strftime('"%Y-%m-%d"', local[0]),
        "10:00-11:00": f"{clocks[0]}-{clocks[1]}",
        "14:00-15:00": f"{clocks[2]}-{clocks[3]}",
    }
    for shown, after in ((15, 0), (16, 40), (19, 100), (20, 140)):
        moment = time.gmtime(first + after)
        clock = time.strftime("%H:%M:%S" if moment.tm_sec else "%H:%M", moment)
        day = f"{time.strftime('%B', moment)} {moment.tm_mday}"
        typed[f"{shown}:00 UTC on December 1"] = f"{clock} UTC on {day}"
        typed[f"2026-12-01T{shown}:00:00Z"] = time.strftime("%Y-%m-%dT%H:%M:%SZ", moment)
    return typed


class Day:
    """docs/operators.md by a timetable, on an empty machine."""

    def __init__(self, shell: Shell) -> None:
        self.shell, self.auction = shell, shell.folder / "auction"
        self.guide = sections_of("operators.md")
        self.section = self.guide["Run the auction by a timetable"]

    def moves(self) -> list[tuple[str, Callable[[], object]]]:
        return [
            ("/v1/status", self.shell.start_services),
            ("auction check", self.write_files),
            ("auction status", self.first_round),
            ("auction status", lambda: self.wait("round 1 is published", lambda: self.reports(2))),
        ]

    def write_files(self) -> None:
        """Writes the timetable that the text shows, and settings of the conductor.

        The settings have less time between rounds, no curtain, and no notice.
        """
        refused = put_through_nginx(self.shell, "Y", FIRST["X"])
        assert refused == {"code": "window", "status": 409}
        # 30 to 40 s from here, for a busy machine
        self.shell.times = times_of_day(int(time.time() + 30) // 10 * 10 + 10)
        blocks = [
            "".join(line[4:] for line in block.splitlines(True))
            for block in re.findall(r"(?m)(?:^    .*\n)+", self.section)
        ]
        (timetable,) = (block for block in blocks if block.startswith("{"))
        (self.auction / "timetable.json").write_text(self.shell.put_elsewhere(timetable))
        settings = json.loads((self.auction / "conductor.json").read_text())
        quick = {"drain": 10, "between": 10, "notice": 0, "publish": 0, "missed": 100}
        text = json.dumps({**settings, **quick})
        (self.auction / "conductor.json").write_text(self.shell.put_elsewhere(text))

    def wait(self, what: str, condition: Callable[[], object]) -> None:
        wait_for(what, condition, 60, every=0.05)

    def reports(self, number: int, *bidders: str) -> bool:
        """Whether the conductor reports this round, with sheets of these bidders.

        It must be done with the round before.
        """
        report = json.loads((self.auction / "operator/conductor.json").read_text())
        found = (report["round"], report["sheets"]) == (number, list(bidders))
        return found and report["state"] != "closed"

    def save(self) -> None:
        """Saves what docs/auditors.md says. The conductor is stopped, so nothing changes."""
        self.shell.say("kill %+")
        steps = sections_of("auditors.md", "###")
        assert TIMETABLE in steps[SAVE_ROUNDS]
        self.shell.type_text(steps[SAVE_COMMITMENT] + steps[SAVE_ROUNDS])

    def verify(self) -> str:
        """What `auction verify` says of what was saved."""
        return self.shell.say("auction verify setup.json auction.journal saved")[0]

    def change(self, words: str, others: str) -> None:
        """Changes words in the saved chain of notices."""
        path = self.auction / "saved/notices.jsonl"
        text = path.read_text()
        assert words in text
        path.write_text(text.replace(words, others))

    def first_round(self) -> None:
        """Starts the conductor, and submits the sheets of X and Y once the window is open."""
        self.shell.begin("auction run $PWD", 1)
        sheets: dict[str, Bids] = {"X": FIRST["X"], "Y": [(0, 1, 100)]}
        self.wait("the window opens", lambda: list((self.auction / "gate").iterdir()))
        for letter, bids in sheets.items():
            assert put_through_nginx(self.shell, letter, bids).get("accepted") is True
        self.wait("the conductor sees the sheets", lambda: self.reports(1, "X", "Y"))


@NEEDED
def test_timetable_leads_to_the_published_results_of_round_1(shell: StartShell) -> None:
    day = Day(shell())
    day.shell.say("umask 027")  # as on other hardened machines
    day.shell.type_text(day.guide["Set up one machine"] + day.section, day.moves())
    day.save()
    verdict = day.verify()
    assert "FAILED" not in verdict
    for line in ("notices", "rounds", "windows", "increments", "announcements"):
        assert f"ok     {line}: " in verdict, verdict
    day.change("Round 1 is open", "Round 1 was open")
    assert "FAILED notices: " in day.verify()


def pages_of_bidders(typed: Shell) -> set[tuple[str, str]]:
    """Types docs/bidders.md as X. Returns the pages that came, with their requests."""
    came = set()

    def look() -> None:
        paths = ("status", "products", "rounds/1", "me", "me/bids", "me/rounds/1")
        for path in (f"/v1/{path}" for path in paths):
            came.add((f"GET {path}", typed.ask("GET", path, "X" * 16)))

    def first_round() -> None:
        look()
        came.add(("PUT /v1/me/bids", typed.bid("X", ROUNDS[0]["X"], 1)))
        look()
        typed.play(ROUNDS[0], 1)
        typed.close(1, increment=10)
        look()

    def rivals() -> None:
        typed.play({letter: ROUNDS[1][letter] for letter in "YZ"}, 2)
        typed.close(2, increment=10)

    (typed.folder / "work/x.head").write_text(f"authorization: Bearer {'X' * 16}\n")
    typed.serve("two_products.json")
    moves = [("-X PUT", first_round), ("/v1/me/rounds/2", rivals)]
    typed.type_text(text_of("bidders.md"), moves)
    assert json.loads(typed.submit("X", [], 1))["code"] == "ended"
    return came


@pytest.mark.needs("curl")
def test_bidders_guide_and_each_page_of_its_table(shell: StartShell) -> None:
    came = pages_of_bidders(shell())
    row = r"^\| `((?:GET|PUT) /v1/\S+)` \|[^|]*\| `([^`]*)` \|$"
    table = re.findall(row, text_of("bidders.md"), re.M)
    assert len(table) == 7
    assert not [request for request, page in table if (request, page) not in came]


def test_each_kind_of_bid_on_the_bidders_card_is_accepted(shell: StartShell) -> None:
    rows = re.findall(r"^\| to [^|]*\|[^|]*\| `(\{.*\})` \|$", text_of("card-bidder.md"), re.M)
    assert len(rows) == 5
    typed = shell()
    typed.serve("activity_limit.json")
    for number, row in enumerate(rows):
        if number == 1:
            typed.play(CARD_ROUND, 1)
            typed.close(1, increments=[10, 10])
        page = json.loads(typed.submit("X", json.loads(f"[{row}]"), 2 if number else 1))
        assert page.get("accepted") is True, f"{row}: {page}"


def test_first_document_of_readme_gives_its_lines(program: pathlib.Path) -> None:
    document = (TOP / "examples/price_edges.json").read_bytes()
    done = subprocess.run([program], input=document, capture_output=True, timeout=60)
    assert done.stdout == (TOP / "crates/clock_auction/stdout").read_bytes()


@pytest.mark.needs("rt")
def test_the_kit_that_readme_names_is_the_one_that_proves() -> None:
    ran = subprocess.run(["rt", "version"], capture_output=True, text=True, timeout=60)
    kit = ran.stdout.strip()
    assert f"    {kit}\n" in (TOP / "README.md").read_text()
    assert f"`{kit}`" in text_of("proof.md")


def test_readme_says_that_no_license_is_granted() -> None:
    assert "No license is granted yet" in (TOP / "README.md").read_text()
