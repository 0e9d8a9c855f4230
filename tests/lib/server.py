"""Servers of the program, each on a port of its own, from start to end."""
import pathlib
import subprocess
from collections.abc import Callable, Mapping

from tests.lib.ports import free_port

# The most seconds that a server may take to end.
PATIENCE = 20
MOST_CONNECTIONS = 1_000_000


class Server:
    """A running `clock_auction serve` on a port of its own. `lines` are those that it printed up to
    `ready`.
    """

    def __init__(
        self,
        program: str | pathlib.Path,
        setup: str | pathlib.Path,
        journal: str | pathlib.Path | None = None,
        *,
        mirror: str | pathlib.Path | None = None,
        connections: int | None = None,
        port: int | None = None,
        environment: Mapping[str, str] | None = None,
        before: Callable[[], None] | None = None,
    ) -> None:
        self.port = port or free_port()
        words: list[str | pathlib.Path] = [program, "serve", "--setup", setup]
        words += ["--port", str(self.port)]
        words += ["--connections", str(connections or MOST_CONNECTIONS)]
        words += [] if journal is None else ["--journal", journal]
        words += [] if mirror is None else ["--mirror", mirror]
        self.child = subprocess.Popen(
            words,
            stdin=subprocess.DEVNULL,
            stdout=subprocess.PIPE,
            stderr=subprocess.PIPE,
            env=environment,
            preexec_fn=before,
        )
        assert self.child.stdout is not None
        self.output = self.child.stdout
        self.lines: list[str] = []
        try:
            while not self.is_ready() and (line := self.output.readline()):
                self.lines.append(line.decode().strip())
        except BaseException:
            self.child.kill()
            raise

    def is_ready(self) -> bool:
        """Whether it listens. If not, it has ended, or is about to end."""
        return bool(self.lines) and self.lines[-1] == f"ready {self.port}"

    def ready(self) -> "Server":
        """Returns this server. Fails if it does not listen."""
        if not self.is_ready():
            raise AssertionError(f"a server has not started: {self.lines}, {self.ended()}")
        return self

    def ended(self) -> tuple[int, str]:
        """Waits until the server ends by itself. Returns its status and its errors."""
        try:
            _output, errors = self.child.communicate(timeout=PATIENCE)
        except subprocess.TimeoutExpired:
            self.child.kill()
            raise AssertionError(f"a server has not ended within {PATIENCE} s") from None
        return self.child.returncode, errors.decode()

    def kill(self) -> tuple[list[str], str]:
        """Kills the server. Returns the lines that it printed after `ready`, and its errors."""
        self.child.kill()
        output, errors = self.child.communicate()
        return output.decode().splitlines(), errors.decode()

    def __enter__(self) -> "Server":
        return self

    def __exit__(self, *_fault: object) -> None:
        """Ends the server if it has not ended by itself."""
        if self.child.poll() is None:
            self.kill()
