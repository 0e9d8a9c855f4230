"""Program and nginx in a folder of their own, as docs/operators.md starts them, on free ports of
this machine.
"""
import contextlib
import json
import os
import pathlib
import re
import shutil
import socket
import subprocess
import sys
from collections.abc import Iterator
from typing import Any

from auction.conductor import commitment
from auction.formats.setup import Setup
from tests.lib.folders import open_folder
from tests.lib.paths import AUCTION, PATHS, TOP, auction
from tests.lib.ports import free_port
from tests.lib.server import Server
from tests.lib.waiting import wait_for

SECOND = "SECONDPERSON0000"  # the token of the desk's second person
OPENSSL = "openssl req -x509 -newkey rsa:2048 -nodes -days 30 -subj /CN=localhost"
NAMES = "subjectAltName=DNS:localhost,IP:127.0.0.1"


def listens(port: int) -> bool:
    """Whether a process listens at this port."""
    with socket.socket() as asked:
        return asked.connect_ex(("127.0.0.1", port)) == 0


def commit(folder: pathlib.Path, has_ties: bool = True) -> None:
    """Commits to the auction in a folder, as `auction commit` does."""
    places = commitment.Places(folder / "kept", folder / "public")
    commitment.make(places, Setup.read(folder / "setup.json"), has_ties)


class Site:
    """Program and nginx in a folder.

    Without a program only nginx runs, and the caller may listen at `server_port` as its server.
    `more` has lines for nginx.conf. nginx's workers are of the user `worker`, or of Debian's
    default.
    """

    def __init__(
        self,
        folder: pathlib.Path,
        program: pathlib.Path | None,
        setup: object,
        more: str = "",
        worker: str = "",
        has_ties: bool = True,
    ) -> None:
        self.folder, self.program, self.worker, self.kills = folder, program, worker, 0
        self.children: list[subprocess.Popen[bytes]] = []
        self.server: Server | None = None
        self.server_port, self.outside, self.inside = free_port(), free_port(), free_port()
        self.setup_text = setup if isinstance(setup, str) else json.dumps(setup)
        try:
            self.write(more, has_ties)
            if program is not None:
                self.begin()
            self.begin_nginx()
        except BaseException:
            self.stop()
            raise

    # ---- What is started and ended

    def begin(self) -> None:
        """Starts the server, or starts it again, on its journal."""
        assert self.program is not None
        files = (self.folder / "setup.json", self.folder / "auction.journal")
        self.server = Server(self.program, *files, port=self.server_port).ready()

    def kill(self) -> None:
        """Kills the server, as a loss of power would, and starts it again."""
        assert self.server is not None
        self.server.kill()
        self.begin()
        self.kills += 1

    def begin_nginx(self) -> None:
        """Starts nginx, and waits until it listens."""
        (self.folder / "inner/door.sock").unlink(missing_ok=True)  # a killed nginx leaves it
        nginx = shutil.which("nginx", path=PATHS) or "nginx"
        with open(self.folder / "nginx.words", "wb") as said:
            self.nginx = self.keep(
                subprocess.Popen(
                    [nginx, "-p", self.folder, "-c", "nginx.conf", "-g", "daemon off;"],
                    stdin=subprocess.DEVNULL,
                    stdout=said,
                    stderr=said,
                )
            )
        wait_for(
            "nginx listens", lambda: listens(self.outside) or self.nginx.poll() is not None, 30
        )
        assert self.nginx.poll() is None, (self.folder / "nginx.words").read_text()

    def begin_receipts(self) -> subprocess.Popen[bytes]:
        """Starts the service that signs receipts, in a folder that nginx's workers read."""
        folder = self.folder / "receipts"
        folder.mkdir()
        self.for_workers(folder)
        folder.chmod(0o2750)
        files = [
            self.folder / name for name in ("setup.json", "auction.journal", "kept", "receipts")
        ]
        return self.begin_auction("receipts", *files, "--refused", self.folder / "log/refused.log")

    def begin_auction(self, *words: object) -> subprocess.Popen[bytes]:
        """Starts a command of `auction` that runs until stop()."""
        command = [sys.executable, str(AUCTION), *map(str, words)]
        quiet = subprocess.DEVNULL
        return self.keep(subprocess.Popen(command, stdin=quiet, stdout=quiet))

    def keep(self, child: subprocess.Popen[bytes]) -> subprocess.Popen[bytes]:
        """Notes a child that stop() ends."""
        self.children.append(child)
        return child

    def stop(self) -> None:
        """Ends what was started here."""
        if self.server is not None and self.server.child.poll() is None:
            self.server.kill()
        for child in self.children:
            if child.poll() is None:
                child.terminate()
        for child in self.children:
            try:
                child.wait(10)
            except subprocess.TimeoutExpired:
                child.kill()
                child.wait()

    # ---- The folder's files

    def write(self, more: str, has_ties: bool) -> None:
        """Writes set-up, tokens, gate, pages, certificate, and nginx's configuration."""
        self.folder.mkdir(parents=True, exist_ok=True)
        self.folder.chmod(0o755)  # nginx's workers are another user
        for name in ("tmp", "log", "gate", "inner"):
            (self.folder / name).mkdir(0o755)
        for name in ("access.log", "refused.log"):
            (self.folder / "log" / name).touch(0o600)
        (self.folder / "gate" / "open").touch()  # sheets are taken at any time
        self.for_workers(self.folder / "inner")
        (self.folder / "inner").chmod(0o710)
        self.write_private("setup.json", self.setup_text)
        commit(self.folder, has_ties)
        self.write_private(
            "bidders.map", auction("maps", self.folder / "setup.json", check=True).stdout
        )
        self.write_private(
            "operator.map", f'"Bearer {json.loads(self.setup_text)["operator"]}" operator;\n'
        )
        self.write_private("desk.map", f'"Bearer {SECOND}" second;\n')
        if self.program is not None:
            self.bound_sheets()
        shutil.copytree(TOP / "web", self.folder / "web")
        subprocess.run([TOP / "tools/bundle", self.folder / "openapi.json"], check=True)
        self.write_configuration(more)
        command = [*OPENSSL.split(), "-addext", NAMES, "-keyout", "key.pem", "-out", "cert.pem"]
        subprocess.run(command, check=True, capture_output=True, cwd=self.folder)

    def write_private(self, name: str, text: str) -> None:
        """Writes a file for its owner only."""
        (self.folder / name).touch(0o600)
        (self.folder / name).write_text(text)

    def write_configuration(self, more: str) -> None:
        """Writes nginx.conf with this site's folder and ports, for this machine only."""
        text = (
            (TOP / "services/nginx.conf")
            .read_text()
            .replace("listen 8443", "listen 127.0.0.1:8443")
        )
        text = re.sub(r"\n *listen \[::\][^\n]*", "", text).replace("\nhttp {", "\nhttp {" + more)
        text = re.sub(r"\nuser [^\n]*", f"\nuser {self.worker};" if self.worker else "", text)
        text = self.with_ports(text).replace("/srv/auction", str(self.folder))
        (self.folder / "nginx.conf").write_text(text)

    def for_workers(self, path: pathlib.Path) -> None:
        """Gives a path to the group of nginx's workers, which are this user if it is not root."""
        if os.geteuid() == 0:
            shutil.chown(path, group=self.worker or "nogroup")

    def bound_sheets(self) -> int:
        """Writes sheet.conf. Returns the most bytes of a sheet."""
        line = auction("maps", "--sheet", self.folder / "setup.json", check=True).stdout
        (self.folder / "sheet.conf").write_text(line)
        match = re.fullmatch(r"client_max_body_size (\d+);\n", line)
        assert match, line
        return int(match[1])

    def with_ports(self, text: str) -> str:
        """A text with this site's ports instead of the usual ones."""
        ports = {"8105": self.server_port, "8106": self.inside, "8443": self.outside}
        return re.sub(r"\b(8105|8106|8443)\b", lambda port: str(ports[port[0]]), text)


@contextlib.contextmanager
def running(program: pathlib.Path | None, setup: object, **options: Any) -> Iterator[Site]:
    """A site in a folder of its own."""
    with open_folder() as folder:
        site = Site(folder, program, setup, **options)
        try:
            yield site
        finally:
            site.stop()
