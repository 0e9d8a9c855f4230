"""An auction that `auction ready` finds ready."""
import contextlib
import json
import os
import pathlib
import re
import secrets
import signal
import subprocess
from collections.abc import Callable, Iterator
from typing import Any

from auction.ready.auction import Auction
from tests.lib.paths import EXAMPLES, TOP
from tests.lib.server import Server
from tests.lib.site import Site
from tests.lib.waiting import wait_for

WORKER, SERVER = "games", "daemon"  # every Debian has them, and neither runs anything
MOUNT = ["mount", "-t", "tmpfs", "-o", "size=600m,mode=755", "none"]


def with_drawn_tokens() -> dict[str, Any]:
    """A set-up whose tokens were drawn at random."""
    setup: dict[str, Any] = json.loads((EXAMPLES / "two_products.json").read_text())
    for bidder in setup["bidders"]:
        bidder["token"] = secrets.token_hex(16)
    return {**setup, "operator": secrets.token_hex(16)}


class ReadyAuction:
    """Server and nginx, with all that `auction ready` looks at.

    These are a firewall, a file system for the log, a trusted certificate, a service that signs
    receipts, and a synchronized clock. `journal`, `host`, and `space` are words of the command.
    """

    def __init__(self, program: pathlib.Path, folder: pathlib.Path, tools: pathlib.Path) -> None:
        self.program, self.folder, self.tools = program, folder, tools
        self.setup = with_drawn_tokens()
        self.site = Site(folder, program, self.setup, worker=WORKER)
        self.journal, self.host, self.space = folder / "auction.journal", "localhost", 10**8
        try:
            self.prepare()
        except BaseException:
            self.stop()
            raise

    def prepare(self) -> None:
        """Adds what a site does not have."""
        log = self.folder / "log"
        subprocess.run([*MOUNT, log], check=True)
        for name in ("access.log", "refused.log"):
            (log / name).touch(0o600)
        self.site.nginx.send_signal(signal.SIGUSR1)
        self.site.write_private("operator.token", f"{self.setup['operator']}\n")
        if not (self.folder / "openapi.json").exists():
            (self.folder / "openapi.json").write_text("{}\n")
        self.signing = self.site.begin_receipts()
        self.set_clock("yes")
        self.load_rules()

    def stop(self) -> None:
        log = self.folder / "log"
        subprocess.run(["umount", "--lazy", log], stderr=subprocess.DEVNULL, check=False)
        self.site.stop()

    def auction(self) -> Auction:
        """What a check looks at."""
        setup = self.folder / "setup.json"
        return Auction(self.folder, setup, self.journal, self.host, self.space)

    # ---- What runs

    def sign(self) -> None:
        """Starts the service that signs receipts again."""
        names = ("setup.json", "auction.journal", "kept", "receipts")
        files = (self.folder / name for name in names)
        self.signing = self.site.begin_auction("receipts", *files)

    def stop_signing(self) -> None:
        """The service does nothing until it is continued."""
        state = pathlib.Path(f"/proc/{self.signing.pid}/stat")
        self.signing.send_signal(signal.SIGSTOP)
        wait_for(
            "the service is stopped", lambda: state.read_text().rsplit(")", 1)[1][1] == "T", 30
        )

    def load_rules(self) -> None:
        """Loads the firewall's rules."""
        text = self.site.with_ports((TOP / "services/clock-auction.nft").read_text())
        text = re.sub(r"\bauction-nginx\b", WORKER, re.sub(r"\bauction-server\b", SERVER, text))
        (self.tools / "rules.nft").write_text(text)
        subprocess.run(["nft", "-f", self.tools / "rules.nft"], check=True)

    def set_clock(self, synchronized: str) -> None:
        """Sets what systemd's timedatectl says."""
        (self.tools / "timedatectl").write_text(f"#!/bin/sh\necho {synchronized}\n")
        (self.tools / "timedatectl").chmod(0o755)

    def reload(self) -> None:
        """nginx reads its files again. Its old workers are gone after that."""
        main = self.site.nginx.pid
        children = pathlib.Path(f"/proc/{main}/task/{main}/children")
        before = set(children.read_text().split())

        def is_done() -> bool:
            now = set(children.read_text().split())
            return bool(now) and not now & before

        self.site.nginx.send_signal(signal.SIGHUP)
        wait_for("nginx reads its files again", is_done, 30)

    def serve(self, setup: pathlib.Path, journal: pathlib.Path) -> None:
        """Ends the server, and starts one on other files."""
        self.end_server()
        self.site.server = Server(self.program, setup, journal, port=self.site.server_port).ready()

    def end_server(self) -> None:
        assert self.site.server is not None
        self.site.server.kill()


# ---- Faults

Fault = Callable[[ReadyAuction], Iterator[None]]


@contextlib.contextmanager
def applied(fault: Fault, auction: ReadyAuction) -> Iterator[None]:
    """The auction with a fault, which is removed at the end.

    A fault is a generator: it makes the fault, yields, and removes it. The service that signs
    receipts is stopped meanwhile: a fault must not end it.
    """
    auction.stop_signing()
    steps = fault(auction)
    next(steps)
    try:
        yield
    finally:
        next(steps, None)
        auction.signing.send_signal(signal.SIGCONT)


def environment_of(folder: pathlib.Path, tools: pathlib.Path) -> dict[str, str]:
    """The variables with which the auction is ready: its certificate is trusted."""
    paths = f"{tools}:{os.environ['PATH']}:/usr/sbin"
    return {"SSL_CERT_FILE": str(folder / "cert.pem"), "PATH": paths}
