"""Faults of an auction that is ready, each of which is removed afterward."""
import json
import os
import pathlib
import shutil
import socket
import subprocess
import time
from collections.abc import Callable, Iterator
from typing import Any, NamedTuple

from auction.formats.signatures import new_key
from auction.ready.published import signs
from tests.lib.http import reply_to, text_of
from tests.lib.waiting import wait_for
from tests.ready.auction import WORKER, Fault, ReadyAuction, applied

CLOSING = b'{"increment":10,"round":1,"ties":[]}'
FILLER = 200_000_000  # bytes that leave too few free for the log


# ---- Files


def mode(name: str, bits: int) -> Fault:
    """Another mode of a file or a folder."""

    def fault(auction: ReadyAuction) -> Iterator[None]:
        path = auction.folder / name
        before = path.stat().st_mode & 0o7777
        path.chmod(bits)
        yield
        path.chmod(before)

    return fault


def owner(name: str, user: int) -> Fault:
    """Another owner of a file."""

    def fault(auction: ReadyAuction) -> Iterator[None]:
        os.chown(auction.folder / name, user, -1)
        yield
        os.chown(auction.folder / name, 0, -1)

    return fault


def text(name: str, change: Callable[[str], str], reload: bool = False) -> Fault:
    """Another text of a file. nginx may read its files again."""

    def fault(auction: ReadyAuction) -> Iterator[None]:
        path = auction.folder / name
        before = path.read_text()
        path.write_text(change(before))
        if reload:
            auction.reload()
        yield
        path.write_text(before)
        if reload:
            auction.reload()

    return fault


def absent(name: str) -> Fault:
    """A file or a folder that is missing."""

    def fault(auction: ReadyAuction) -> Iterator[None]:
        path = auction.folder / name
        moved = path.rename(auction.folder / "elsewhere")
        yield
        moved.rename(path)

    return fault


def present(files: dict[str, str], seconds: int = 0) -> Fault:
    """Additional files, written this number of seconds ago."""

    def fault(auction: ReadyAuction) -> Iterator[None]:
        paths = {auction.folder / name: content for name, content in files.items()}
        for path, content in paths.items():
            path.parent.mkdir(exist_ok=True)
            path.write_text(content)
            os.utime(path, (time.time() - seconds,) * 2)
        yield
        for path in paths:
            path.unlink()

    return fault


def passed(seconds: int, ahead: float) -> str:
    """The report of a copy to another machine, made this number of seconds from now."""
    report = {"host": "b", "time": time.time() + seconds, "ahead": ahead}
    return json.dumps({**report, "round": 1, "length": 56})


def both(first: Fault, second: Fault) -> Fault:
    """Two faults."""

    def fault(auction: ReadyAuction) -> Iterator[None]:
        with applied(first, auction), applied(second, auction):
            yield

    return fault


def full_log(auction: ReadyAuction) -> Iterator[None]:
    filler = auction.folder / "log/filler"
    with open(filler, "wb") as file:
        os.posix_fallocate(file.fileno(), 0, FILLER)
    yield
    filler.unlink()


def old_cache(auction: ReadyAuction) -> Iterator[None]:
    """A cached page of products with another name."""
    auction.auction().ask(auction.site.outside, "/v1/products")
    found = [path for path in (auction.folder / "tmp/cache").rglob("*") if path.is_file()]
    [page] = [path for path in found if b'"name":"A"' in path.read_bytes()]
    page.write_bytes(page.read_bytes().replace(b'"name":"A"', b'"name":"Q"'))
    yield
    page.unlink()


# ---- Words of the command


def words(**values: Any) -> Fault:
    """Other words of the command line."""

    def fault(auction: ReadyAuction) -> Iterator[None]:
        before = {name: getattr(auction, name) for name in values}
        vars(auction).update(values)
        yield
        vars(auction).update(before)

    return fault


def other_journal(auction: ReadyAuction) -> Iterator[None]:
    """A copy of the journal, which no server has."""
    journal = auction.journal
    auction.journal = shutil.copy(journal, auction.tools / "copy.journal")
    yield
    auction.journal = journal


def one_file_system(auction: ReadyAuction) -> Iterator[None]:
    """The journal where the log is."""
    journal = auction.journal
    auction.journal = auction.folder / "log/access.log"
    yield
    auction.journal = journal


# ---- What runs


def serving(
    change: Callable[[dict[str, Any]], dict[str, Any]], closes_round_1: bool = False
) -> Fault:
    """A server of another set-up, with a journal of its own.

    Its first round may be closed without a sheet.
    """

    def fault(auction: ReadyAuction) -> Iterator[None]:
        setup, journal = auction.tools / "setup.json", auction.tools / "auction.journal"
        setup.write_text(json.dumps(change(auction.setup)))
        auction.serve(setup, journal)
        if closes_round_1:
            closing = text_of("POST /v1/close", auction.setup["operator"], CLOSING)
            reply_to(auction.site.server_port, closing)
        yield
        auction.serve(auction.folder / "setup.json", auction.journal)
        journal.unlink()

    return fault


def with_other_products(setup: dict[str, Any]) -> dict[str, Any]:
    products = [{**product, "opening": product["opening"] + 1} for product in setup["products"]]
    return {**setup, "products": products}


def no_server(auction: ReadyAuction) -> Iterator[None]:
    auction.end_server()
    yield
    auction.site.begin()


def no_signing(auction: ReadyAuction) -> Iterator[None]:
    auction.signing.kill()
    auction.signing.wait(10)
    yield
    auction.sign()
    process = pathlib.Path(f"/proc/{auction.signing.pid}")
    wait_for("the service starts", lambda: signs(process, auction.folder / "receipts"), 10)


def listener(port: str) -> Fault:
    """Somebody who listens at a port of another address."""

    def fault(auction: ReadyAuction) -> Iterator[None]:
        with socket.create_server(("127.0.0.2", getattr(auction.site, port))):
            yield

    return fault


def neighbor(auction: ReadyAuction) -> Iterator[None]:
    """A program of nginx's user."""
    child = subprocess.Popen(["setpriv", "--reuid", WORKER, "--clear-groups", "sleep", "60"])
    name = pathlib.Path(f"/proc/{child.pid}/comm")
    wait_for("a program of nginx's user", lambda: name.read_text() == "sleep\n", 30)
    yield
    child.kill()
    child.wait()


def without_rules(auction: ReadyAuction) -> Iterator[None]:
    subprocess.run(["nft", "flush", "ruleset"], check=True)
    yield
    auction.load_rules()


def own_time(auction: ReadyAuction) -> Iterator[None]:
    auction.set_clock("no")
    yield
    auction.set_clock("yes")


# ---- Certificates


def make_certificate(folder: pathlib.Path, key: pathlib.Path, days: int) -> None:
    """Makes a certificate for localhost that is valid for some days, and its key."""
    kind: list[str | pathlib.Path] = [
        "-newkey",
        "ec",
        "-pkeyopt",
        "ec_paramgen_curve:prime256v1",
        "-nodes",
        "-keyout",
        key,
    ]
    names = ["-subj", "/CN=x", "-addext", "subjectAltName=DNS:localhost", "-out", "/dev/stdout"]
    asked: list[str | pathlib.Path] = ["openssl", "req", "-new", *kind, *names]
    request = subprocess.run(asked, check=True, capture_output=True).stdout
    signed: list[str | pathlib.Path] = ["openssl", "x509", "-req", "-signkey", key]
    signed += ["-days", str(days), "-copy_extensions", "copy", "-out", folder / "cert.pem"]
    subprocess.run(signed, input=request, check=True, capture_output=True)


def certificate(days: int, own_key: bool = True, reload: bool = True) -> Fault:
    """Another certificate, with the key next to it or another one."""

    def fault(auction: ReadyAuction) -> Iterator[None]:
        names = ("cert.pem", "key.pem")
        before = {name: (auction.folder / name).read_bytes() for name in names}
        key = (auction.folder if own_key else auction.tools) / "key.pem"
        make_certificate(auction.folder, key, days)
        if reload:
            auction.reload()
        yield
        for name, content in before.items():
            (auction.folder / name).write_bytes(content)
        if reload:
            auction.reload()

    return fault


def untrusted(_: ReadyAuction) -> Iterator[None]:
    trusted = os.environ.pop("SSL_CERT_FILE")
    yield
    os.environ["SSL_CERT_FILE"] = trusted


# ---- Other texts


def with_first_token(token: str) -> Callable[[str], str]:
    """A set-up whose first bidder has another token, or that of the second one."""

    def change(setup: str) -> str:
        value = json.loads(setup)
        value["bidders"][0]["token"] = token or value["bidders"][1]["token"]
        return json.dumps(value)

    return change


def with_other_digest(page: str) -> str:
    return json.dumps({**json.loads(page), "auction": "0" * 64})


def without_x(lines: str) -> str:
    return lines.replace('"X"', '"Q"')


def without_line_of_x(lines: str) -> str:
    return "".join(line for line in lines.splitlines(True) if '"X"' not in line)


def always(content: str) -> Callable[[str], str]:
    return lambda _: content


def replaced(old: str, new: str) -> Callable[[str], str]:
    return lambda before: before.replace(old, new)


# ---- All faults


class Row(NamedTuple):
    """The check that finds a fault, some of its words, and the fault."""

    check: str
    words: str
    fault: Fault


SETTINGS = json.dumps(
    {"url": "", "setup": "setup.json", "token": "operator.token", "journal": "auction.journal"}
)
WITH_SETTINGS = {"conductor.json": SETTINGS}
STANDBY = json.dumps({"role": "standby", "taker": ""})
WITH_REPORT = {**WITH_SETTINGS, "operator/conductor.json": "{}"}
PERSONS = present({"persons.csv": "bidder,person,token\nX,alice,\n"})  # alice was revoked

FAULTS = [
    Row("set-up", "a file is no JSON in UTF-8", text("setup.json", lambda setup: setup[:-3])),
    Row("set-up", "two tokens are the same", text("setup.json", with_first_token(""))),
    Row(
        "set-up",
        "at random (openssl rand -hex 16): X",
        text("setup.json", with_first_token("X" * 16)),
    ),
    Row("set-up", "No such file", absent("setup.json")),
    Row("secret files", "key.pem has mode 640", mode("key.pem", 0o640)),
    Row("secret files", "setup.json has mode 604", mode("setup.json", 0o604)),
    Row("secret files", "auction.journal has mode 644", mode("auction.journal", 0o644)),
    Row("secret files", "log/access.log has mode 644", mode("log/access.log", 0o644)),
    Row("secret files", "bidders.map is not root's", owner("bidders.map", 65534)),
    Row("secret files", "kept/chain.json has mode 644", mode("kept/chain.json", 0o644)),
    Row("bidders.map", "not of this set-up", text("bidders.map", without_x)),
    Row("bidders.map", "No such file", absent("bidders.map")),
    Row(
        "bidders.map",
        "persons were revoked: X",
        both(PERSONS, text("bidders.map", without_line_of_x)),
    ),
    Row("bidders.map", "by.map is not of persons.csv", present({"by.map": '"Bearer x" "eve";\n'})),
    Row("bidders.map", "run `auction persons FOLDER`", PERSONS),
    Row("sheet.conf", "not of this set-up", text("sheet.conf", always("client_max_body_size 1m;"))),
    Row("sheet.conf", "No such file", absent("sheet.conf")),
    Row("operator's token", "operator.token is missing", absent("operator.token")),
    Row("operator's token", "operator.token is not", text("operator.token", always("x\n"))),
    Row("operator's token", "operator.map is not", text("operator.map", always('"x" yes;\n'))),
    Row("gate", "the folder gate is missing", absent("gate")),
    Row("gate", "nginx cannot look into gate", mode("gate", 0o700)),
    Row("gate", "gate/open is there", present(WITH_SETTINGS)),
    Row("nginx.conf", "[emerg]", text("nginx.conf", lambda lines: lines + "}\n")),
    Row("conductor", "never ran", present(WITH_SETTINGS)),
    Row("conductor", "report is 60 s old", present(WITH_REPORT, 60)),
    Row("commitment", "it is missing", absent("public/commitment.json")),
    Row("commitment", "another set-up", text("public/commitment.json", with_other_digest)),
    Row("commitment", "another key", text("kept/receipts.pem", lambda _: new_key().decode())),
    Row(
        "commitment",
        "another chain",
        text("public/commitment.json", replaced('"length":10000', '"length":9999')),
    ),
    Row("commitment", "is 403", mode("public", 0o700)),
    Row("receipts", "the folder receipts is missing", absent("receipts")),
    Row("receipts", "with mode 2755", mode("receipts", 0o2755)),
    Row("server", "no one listens", no_server),
    Row("server", "another set-up", serving(with_other_products)),
    Row("server", "operator's token", serving(lambda setup: {**setup, "operator": "0" * 16})),
    Row("server", "has ended", serving(lambda setup: setup, closes_round_1=True)),
    Row("server", "open at other addresses", listener("server_port")),
    Row("journal", "no server has", no_server),
    Row("journal", "no server has", other_journal),
    Row("journal", "not of this set-up", text("setup.json", lambda setup: setup + " ")),
    Row("bidders' port", "may games read web/index.html", mode("web", 0o700)),
    Row("bidders' port", "/openapi.json is 404", absent("openapi.json")),
    Row("bidders' port", "empty tmp/cache", old_cache),
    Row("bidders' port", "is refused with 401", text("bidders.map", always(""), reload=True)),
    Row("operator's port", "/conductor.json is 404", present(WITH_SETTINGS)),
    Row("operator's port", "open at other addresses", listener("inside")),
    Row("other users", "nobody can connect", without_rules),
    Row("nginx's user", "also runs sleep", neighbor),
    Row(
        "nginx's user",
        "no user of its own",
        text("nginx.conf", replaced(f"user {WORKER}", "user nobody")),
    ),
    Row(
        "nginx's user",
        "does not run as mail",
        text("nginx.conf", replaced(f"user {WORKER}", "user mail")),
    ),
    Row("certificate", "not the key", certificate(30, own_key=False, reload=False)),
    Row("certificate", "expires within", certificate(3)),
    Row("certificate", "has expired", certificate(0)),
    Row("certificate", "not for auction.example", words(host="auction.example")),
    Row("certificate", "sends another certificate", certificate(30, reload=False)),
    Row("certificate", "do not trust", untrusted),
    Row("space", "for the journal", words(space=10**18)),
    Row("space", "for the log", full_log),
    Row("file systems", "one file system", one_file_system),
    Row("clock", "not synchronized", own_time),
    Row("standby", "this machine is a standby", present({"fence.json": STANDBY})),
    Row("standby", "this machine is fenced", present({"fence.json": "{}"})),
    Row("standby", "b has got nothing for", present({"state/standby.json": passed(-60, 0)})),
    Row(
        "standby",
        "the clock of b differs by +7 s",
        present({"state/standby.json": passed(10**6, 7)}),
    ),
    # Last, since the service reads the set-up when it starts, and other faults change that.
    Row("receipts", "no one signs them", no_signing),
]
