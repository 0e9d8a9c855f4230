"""Folders of an auction and of its copies, made without a server: a journal by its format."""
import contextlib
import json
import multiprocessing
import os
import pathlib
import time
from collections.abc import Callable, Iterator
from typing import Any

from auction.conductor.chain import Chain
from auction.conductor.plan import Plan, PlanFile
from auction.formats.setup import Setup
from auction.standby.facts import identity_of
from auction.standby.frames import Line
from auction.standby.keeping import keep
from auction.standby.sending import Passed, Sender
from tests.lib.conducted import committed, small_setup
from tests.lib.http import text_of
from tests.lib.journals import journal_of, texts_of
from tests.lib.setups import OPERATOR

DOCUMENT = json.dumps(small_setup())
ROUNDS = 3


def sheet(name: str, number: int, quantity: int) -> bytes:
    bids = [{"price": 100, "product": 0, "quantity": quantity}]
    body = json.dumps({"bids": bids, "round": number}).encode()
    return text_of("PUT /v1/me/bids", name * 16, body)


def closing(number: int) -> bytes:
    body = json.dumps({"increment": 10, "round": number, "ties": []}).encode()
    return text_of("POST /v1/close", OPERATOR, body)


class First:
    """The folder of the machine that serves, which plays rounds without a server."""

    def __init__(self, folder: pathlib.Path) -> None:
        self.folder, self.texts = folder, list[bytes]()
        for name in ("state", "public/rounds", "receipts/.a", "kept", "web"):
            (folder / name).mkdir(parents=True)
        (folder / "setup.json").write_text(DOCUMENT)
        (folder / "operator.token").write_text(f"{OPERATOR}\n")
        (folder / "web/index.html").write_text("<html>")
        (folder / "nginx.conf").write_text(configuration())
        files = {"setup": "setup.json", "token": "operator.token", "journal": "auction.journal"}
        settings = {"url": "http://127.0.0.1:9", "readers": "root", **files}
        (folder / "conductor.json").write_text(json.dumps(settings))
        for name, content in committed(DOCUMENT).items():
            (folder / name).write_bytes(content)
        self.write_journal()
        self.write_plan()

    def write_journal(self) -> None:
        """Brings the journal to the disk. It only grows."""
        whole = journal_of(DOCUMENT.encode(), self.texts)
        path = self.folder / "auction.journal"
        before = path.read_bytes() if path.exists() else b""
        assert whole.startswith(before)
        with open(path, "ab") as file:
            file.write(whole[len(before) :])

    def write_plan(self) -> None:
        PlanFile(self.folder / "state/plan.json", identity_of(self.folder)).store(
            Plan(identity_of(self.folder))
        )

    def bid(self, name: str, number: int, place: int) -> None:
        """A sheet is accepted, and has a receipt."""
        self.texts.append(sheet(name, number, 1))
        self.write_journal()
        self.show(name, f"{number}-{place}.json", "{}")

    def show(self, name: str, file: str, text: str) -> None:
        """Shows a bidder a file, in the folders and by the links of `auction receipts`."""
        receipts = self.folder / "receipts"
        (receipts / f".a/{name}").mkdir(exist_ok=True)
        (receipts / f".a/{name}/{file}").write_text(text)
        for link, to in ((".now", ".a"), (name, f".now/{name}")):
            if not (receipts / link).is_symlink():
                (receipts / link).symlink_to(to)

    def close(self, number: int) -> None:
        """A round is closed and published."""
        self.texts.append(closing(number))
        self.write_journal()
        digest = texts_of(DOCUMENT.encode(), journal_of(DOCUMENT.encode(), self.texts))[-1][1]
        setup = Setup.read(self.folder / "setup.json")
        seed = seed_of(self.folder, setup, number)
        page = {"round": number, "digest": digest, "seed": seed, "ended": False}
        (self.folder / f"public/rounds/{number}.json").write_text(json.dumps(page))
        (self.folder / "public/timetable.json").write_text(json.dumps({"round": number + 1}))

    def files(self) -> dict[str, bytes]:
        """Its files of a copy, with the journal."""
        return files_of(self.folder)


def seed_of(folder: pathlib.Path, setup: Setup, number: int) -> str:
    seed = Chain.read(folder / "kept/chain.json", setup).seed(number)
    assert seed
    return seed.hex()


def configuration() -> str:
    return (
        "listen 127.0.0.1:1 ssl;\nlisten 127.0.0.1:2 default_server;\n"
        "upstream auction {\n server 127.0.0.1:3;\n}\n"
    )


def files_of(folder: pathlib.Path) -> dict[str, bytes]:
    """The files that both machines must have."""
    own = (
        "fence.json",
        "standby.",
        "log",
        "state/taken_over",
        "state/standby",
        ".lock",
        "incoming",
    )
    return {
        name: path.read_bytes()
        for path in folder.rglob("*")
        if path.is_file()
        and not any(part in (name := str(path.relative_to(folder))) for part in own)
    }


@contextlib.contextmanager
def line_to(target: Callable[[Line], Any]) -> Iterator[tuple[Line, Any]]:
    """A line to another process, in which `target` runs."""
    there, back = os.pipe(), os.pipe()
    context = multiprocessing.get_context("fork")

    def run() -> None:
        os.close(there[1])
        os.close(back[0])
        with contextlib.suppress(Exception):
            target(Line(os.fdopen(there[0], "rb"), os.fdopen(back[1], "wb")))

    child = context.Process(target=run)
    child.start()
    os.close(there[0])
    os.close(back[1])
    outgoing, incoming = os.fdopen(there[1], "wb"), os.fdopen(back[0], "rb")
    try:
        yield Line(incoming, outgoing), child
    finally:
        for file in (outgoing, incoming):
            with contextlib.suppress(BrokenPipeError):
                file.close()
        child.join(60)
        child.kill()


def copy(
    first: pathlib.Path, second: pathlib.Path, clock: Callable[[], float] = time.time
) -> Passed:
    """Sends one pass from a folder to another."""
    with line_to(lambda line: keep(second, line, clock)) as (line, _):
        sender = Sender(first, line, time.time)
        sender.greet()
        passed = sender.one_pass()
        line.send("end")
    return passed
