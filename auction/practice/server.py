"""The auction's server: the built program, or the unproved one. Also requests to it."""
import http.client
import json
import os
import pathlib
import shutil
import signal
import subprocess
import threading
import time
from typing import Any

from auction.installed import TOP
from auction.practice import PracticeFault

BUILT = TOP / "crates" / "clock_auction" / "out" / "clock_auction"
UNPROVED = TOP / "out" / "unproved" / "clock_auction"
CONNECTIONS = 1_000_000
PATIENCE = 60  # seconds in which a server must answer


def program_of(given: pathlib.Path | None) -> pathlib.Path:
    """The program: the given one, the built one, the one on the PATH, or an unproved one."""
    found = shutil.which("clock_auction")
    for path in [given] if given else [BUILT, *([pathlib.Path(found)] if found else [])]:
        if os.access(path, os.X_OK):
            return path.absolute()
    if given:
        raise PracticeFault(f"{given} is not a program.")
    if not shutil.which("rt"):
        raise PracticeFault(
            "There is no server to practice with: no built program, no `clock_auction` on the "
            "PATH, and no `rt`."
        )
    return unproved()


def unproved() -> pathlib.Path:
    """The unproved program, compiled unless it is there already. A line shows the progress."""
    print("There is no built program, so this takes an unproved one.", flush=True)
    command = [TOP / "tools" / "try-program"]
    if subprocess.run(command, stdout=subprocess.DEVNULL, check=False).returncode:
        raise PracticeFault("Without a program there is no practice.")
    return UNPROVED


class Server:
    """One auction on a port of this machine, with its journal in a folder.

    `news` is set when a sheet is accepted. `before` has words that begin the command, such as
    those that bound what the server may use.
    """

    def __init__(
        self,
        program: pathlib.Path,
        folder: pathlib.Path,
        port: int,
        before: tuple[str, ...] = (),
    ) -> None:
        self.program, self.folder, self.port = program, folder, port
        self.log, self.news = folder / "server.log", threading.Event()
        words = [
            "serve",
            "--setup",
            str(folder / "setup.json"),
            "--journal",
            str(folder / "auction.journal"),
        ]
        words += ["--port", str(port), "--connections", str(CONNECTIONS)]
        with open(self.log, "wb") as log:
            # Ctrl+C must reach only this script.
            self.process = subprocess.Popen(
                [*before, str(program), *words],
                stdin=subprocess.DEVNULL,
                stdout=log,
                stderr=log,
                start_new_session=True,
            )

    def wait(self) -> None:
        """Returns once the server answers. A PracticeFault if the server ends first."""
        given_up = time.monotonic() + PATIENCE
        while time.monotonic() < given_up:
            try:
                if self.send("GET", "/v1/status")[0] == 200:
                    return
            except OSError:
                pass
            if self.process.poll() is not None:
                said = self.log.read_text(errors="replace")[-2000:].strip()
                raise PracticeFault(f"The server ended: {said}")
            time.sleep(0.05)
        raise PracticeFault(
            f"The server did not answer within {PATIENCE} seconds. Its output is in {self.log}."
        )

    def stop(self) -> None:
        """Ends the server and everything that it started. Its journal is whole at any moment."""
        try:
            os.killpg(self.process.pid, signal.SIGTERM)
        except ProcessLookupError:
            pass
        self.process.wait()

    def send(
        self, method: str, path: str, authorization: str | None = None, body: bytes | None = None
    ) -> tuple[int, bytes]:
        """Sends one request on a connection of its own. Returns the reply's status and page."""
        link = http.client.HTTPConnection("127.0.0.1", self.port, timeout=300)
        try:
            link.request(
                method, path, body, {"authorization": authorization} if authorization else {}
            )
            reply = link.getresponse()
            page = reply.read()
            if method == "PUT" and reply.status == 200:
                self.news.set()
            return reply.status, page
        finally:
            link.close()

    def page(
        self, path: str, token: str | None = None, value: object = None, method: str = "PUT"
    ) -> dict[str, Any]:
        """Returns the page for a path, after sending a value if there is one.

        A PracticeFault if it is refused.
        """
        body = None if value is None else json.dumps(value, separators=(",", ":")).encode()
        status, page = self.send(
            "GET" if body is None else method, path, f"Bearer {token}" if token else None, body
        )
        if status != 200:
            raise PracticeFault(f"The server refused {path}: {page.decode(errors='replace')}")
        found: dict[str, Any] = json.loads(page)
        return found
