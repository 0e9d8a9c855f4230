"""A running practice, its output, and its address."""
import contextlib
import http.client
import pathlib
import signal
import subprocess

from tests.lib.ports import free_port

TOKEN = "PRACTICEPRACTICE"
SECONDS = 240  # for a practice to end by itself, on a machine with other work


class Practice:
    """One practice of a clone, in a folder of its own."""

    def __init__(
        self,
        clone: pathlib.Path,
        folder: pathlib.Path,
        *words: str,
        environment: dict[str, str] | None = None,
    ) -> None:
        self.folder, self.port, self.said = folder, free_port(2), ""
        script = clone / "examples" / "practice"
        given = ["--folder", str(folder), "--port", str(self.port), *words]
        self.process = subprocess.Popen(
            [script, *given],
            stdin=subprocess.DEVNULL,
            stdout=subprocess.PIPE,
            stderr=subprocess.STDOUT,
            text=True,
            start_new_session=True,
            env=environment,
        )
        assert self.process.stdout
        self.output = self.process.stdout

    def stop(self) -> None:
        """Ends a practice that still runs, with its server."""
        if self.process.poll() is None:
            self.process.terminate()
            self.process.communicate(timeout=20)

    def until(self, words: str) -> None:
        """Reads the output until it has these words."""
        while words not in self.said:
            line = self.output.readline()
            assert line, f"the practice ended without {words!r}:\n{self.said}"
            self.said += line

    def rest(self) -> int:
        """Reads the output until the practice ends. Returns its status."""
        said, _ = self.process.communicate(timeout=SECONDS)
        self.said += said
        return self.process.returncode

    def interrupt(self) -> int:
        """Presses Ctrl+C. Returns the status."""
        self.process.send_signal(signal.SIGINT)
        return self.rest()

    def asked(self, path: str, method: str = "GET", **headers: str) -> tuple[int, bytes]:
        """The status and the page of one request to its address."""
        link = http.client.HTTPConnection("127.0.0.1", self.port, timeout=20)
        with contextlib.closing(link):
            link.request(method, path, headers=headers)
            reply = link.getresponse()
            return reply.status, reply.read()

    def address(self, page: str = "") -> str:
        """The address of a page, for a browser window."""
        return f"http://127.0.0.1:{self.port}/{page}"
