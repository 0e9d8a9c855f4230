"""A server that is timed, with the processor time and the memory that it uses."""
import os
import pathlib
import sys
import time

TOP = pathlib.Path(__file__).resolve().parent.parent
sys.path.insert(0, str(TOP))

from tests.lib.http import reply_to
from tests.lib.server import Server


class Served(Server):
    """A server that is timed. `start` is the seconds until it was ready."""

    def __init__(self, program, setup, connections, journal=None, mirror=None):
        begun = time.monotonic()
        super().__init__(program, setup, journal, mirror=mirror, connections=connections)
        self.ready()
        self.start = time.monotonic() - begun

    def send(self, text, seconds=60):
        """The reply to a request. Fails unless it is 200 OK."""
        reply = reply_to(self.port, text, seconds=seconds)
        assert reply.startswith(b"HTTP/1.1 200"), reply
        return reply

    def processor(self):
        """The processor seconds of the server's only thread so far."""
        return int(pathlib.Path(f"/proc/{self.child.pid}/schedstat").read_text().split()[0]) / 1e9

    def memory(self, name):
        """Bytes of a field of /proc: VmHWM at most, VmRSS now, VmPeak of address space at most."""
        for line in pathlib.Path(f"/proc/{self.child.pid}/status").read_text().splitlines():
            if line.startswith(f"{name}:"):
                return int(line.split()[1]) * 1024
        raise AssertionError(f"/proc has no {name}")

    def spent(self):
        """Waits until the server ends by itself. Returns its processor seconds."""
        _pid, status, used = os.wait4(self.child.pid, 0)
        self.child.returncode = status
        assert status == 0, f"the server ended with status {status}"
        return used.ru_utime + used.ru_stime
