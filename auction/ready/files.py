"""The files of nginx's folder: what they have, and who may read them."""
import json
import stat
import subprocess
import time

from auction import mock, persons
from auction.formats.ties import Commitment

from . import maps
from .auction import Auction
from .findings import Check, ensure

DIFFERENT = 7  # letters of a token
STALE = 15  # seconds after which a running conductor has written its report again
SECRETS = (
    *("operator.token", "operator.head", "operator.map", "bidders.map", "persons.map", "by.map"),
    *("persons.csv", "key.pem", "second.token", "desk.map"),
    *("kept/chain.json", "kept/receipts.pem"),
)
# nginx gives its logs to its workers' user when it opens them again.
LOGS = ("log/access.log", "log/refused.log")
OF_PERSONS = "run `auction persons FOLDER`, and reload nginx"
ANEW = "it is not of this set-up: make it again with `auction maps`, and reload nginx"


def is_weak(token: str) -> bool:
    """Whether a token was not drawn. Of 10^9 of `openssl rand -hex 16`, fewer than one is so."""
    return len(set(token.lower())) < DIFFERENT


def set_up(auction: Auction) -> str:
    setup = auction.setup
    ensure(
        len({setup["operator"], *(bidder["token"] for bidder in setup["bidders"])})
        == len(setup["bidders"]) + 1,
        "two tokens are the same",
    )
    tokens = {"the operator": setup["operator"]}
    tokens.update({bidder["name"]: bidder["token"] for bidder in setup["bidders"]})
    weak = [name for name, token in tokens.items() if is_weak(token)]
    ensure(not weak, f"draw tokens at random (openssl rand -hex 16): {', '.join(weak[:5])}")
    committed = auction.folder / "public/commitment.json"
    kind = mock.kind_of_value(setup)
    is_mock = Commitment.read(committed).mock if committed.exists() else kind is mock.Kind.MOCK
    fault = mock.disagreement(kind, is_mock)
    ensure(not fault, str(fault))
    counts = f"{len(setup['products'])} products, {len(setup['bidders'])} bidders"
    shown = f"{mock.WORDS} " if is_mock else ""
    return f"{shown}{counts}, version {setup['version']}"


def secrets(auction: Auction) -> str:
    """Files with tokens, bids, or keys: only their owner reads them, and root owns nginx's."""
    found = [path for name in SECRETS if (path := auction.folder / name).exists()]
    for path in (auction.setup_file, *found):
        ensure(path.stat().st_uid == 0, f"{path} is not root's: chown root")
    logs = [auction.folder / name for name in LOGS]
    files = (auction.setup_file, *found, *logs, auction.journal)
    for path in files:
        mode = stat.S_IMODE(path.stat().st_mode)
        ensure(mode & 0o077 == 0, f"{path} has mode {mode:o}: chmod 600")
    return f"{len(files)} files that only their owner may read"


def bidders_map(auction: Auction) -> str:
    text = (auction.folder / "bidders.map").read_text(encoding="utf-8")
    found = persons.read(auction.folder)
    ensure(text == maps.bidders_map(auction.setup, found), OF_PERSONS if found else ANEW)
    for name, wanted in (
        ("persons.map", maps.persons_map(auction.setup, found)),
        ("by.map", maps.by_map(found)),
    ):
        path = auction.folder / name
        there = path.read_text(encoding="utf-8") if path.exists() else ""
        ensure(there == wanted, f"{name} is not of persons.csv: {OF_PERSONS}")
    names = [bidder["name"] for bidder in auction.setup["bidders"]]
    barred = [name for name in names if f'" "{name}";' not in text]
    ensure(not barred, f"all persons were revoked: {', '.join(barred[:5])}")
    return f"the lines of this set-up, with {len(found)} persons"


def sheet_conf(auction: Auction) -> str:
    text = (auction.folder / "sheet.conf").read_text(encoding="utf-8")
    ensure(text == maps.sheet_conf(auction.setup), ANEW)
    return text.strip()


def operators_token(auction: Auction) -> str:
    operator = auction.setup["operator"]
    for name, wanted in (
        ("operator.token", f"{operator}\n"),
        ("operator.head", f"authorization: Bearer {operator}\n"),
        ("operator.map", f'"Bearer {operator}" operator;\n'),
    ):
        path = auction.folder / name
        ensure(name != "operator.token" or path.exists(), "operator.token is missing")
        ensure(
            not path.exists() or path.read_text(encoding="utf-8") == wanted,
            f"{name} is not of this set-up",
        )
    return "of this set-up"


def gate(auction: Auction) -> str:
    folder = auction.folder / "gate"
    ensure(folder.is_dir(), "the folder gate is missing, so no sheet is accepted")
    ensure(
        stat.S_IMODE(folder.stat().st_mode) & 0o005 == 0o005,
        "nginx cannot look into gate: chmod 755 gate",
    )
    is_open = (folder / "open").exists()
    if (auction.folder / "conductor.json").exists():
        ensure(not is_open, "gate/open is there, so the timetable does not count: rm gate/open")
        return "shut, until the conductor opens it"
    return (
        "open: sheets are accepted at any time" if is_open else "shut: `touch gate/open` opens it"
    )


def configuration(auction: Auction) -> str:
    ran = subprocess.run(
        ["nginx", "-t", "-p", auction.folder, "-c", "nginx.conf"],
        capture_output=True,
        text=True,
        check=False,
    )
    ensure(ran.returncode == 0, refused_by_nginx(ran.stderr))
    return "nginx accepts it"


def refused_by_nginx(words: str) -> str:
    """What nginx says of its configuration, and what to do if the machine has no IPv6."""
    no_ipv6 = "Address family not supported" in words
    advice = "; the machine has no IPv6: remove the line `listen [::]..` from nginx.conf"
    return (words.strip() or "nginx refuses it") + advice * no_ipv6


def conductor(auction: Auction) -> str:
    """Whether the conductor runs, if it has settings."""
    if not (auction.folder / "conductor.json").exists():
        return "without settings: you close rounds by hand"
    report = auction.folder / "operator/conductor.json"
    start = "systemctl enable --now clock-auction-conductor, or `auction run FOLDER`"
    ensure(report.exists(), f"it has settings, but never ran: {start}")
    age = time.time() - report.stat().st_mtime
    ensure(age < STALE, f"its last report is {age:.0f} s old: {start}")
    return json.loads(report.read_bytes())["waits_for"]


CHECKS = [
    Check("set-up", set_up),
    Check("secret files", secrets),
    Check("bidders.map", bidders_map),
    Check("sheet.conf", sheet_conf),
    Check("operator's token", operators_token),
    Check("gate", gate),
    Check("nginx.conf", configuration),
    Check("conductor", conductor),
]
