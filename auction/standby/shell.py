"""A command on the other machine, and a line to it."""
import contextlib
import shlex
import subprocess
from collections.abc import Iterator

from .frames import Line

USUAL = "ssh -o BatchMode=yes -o ConnectTimeout=10"
SECONDS = 10


@contextlib.contextmanager
def connected(shell: str, host: str, words: list[str]) -> Iterator[Line]:
    """Runs a command on a host by a shell such as ssh, and ends it with this block."""
    command = [*shlex.split(shell), host, shlex.join(words)]
    child = subprocess.Popen(command, stdin=subprocess.PIPE, stdout=subprocess.PIPE)
    assert child.stdin and child.stdout
    try:
        yield Line(child.stdout, child.stdin)
    finally:
        for file in (child.stdin, child.stdout):
            with contextlib.suppress(OSError):
                file.close()
        try:
            child.wait(SECONDS)
        except subprocess.TimeoutExpired:
            child.kill()
            child.wait()
