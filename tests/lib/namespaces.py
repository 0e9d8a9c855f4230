"""A network of its own, and mounts, for the thread that runs a test and for all that it starts."""
import contextlib
import ctypes
import os
import subprocess
from collections.abc import Iterator

FLAGS = {"net": 0x4000_0000, "mnt": 0x0002_0000}  # of clone(2), by the names in /proc
LIBRARY = ctypes.CDLL(None, use_errno=True)


def call(name: str, *words: int) -> None:
    """Calls a function of the C library. Raises OSError if it fails."""
    if getattr(LIBRARY, name)(*words):
        error = ctypes.get_errno()
        raise OSError(error, f"{name}: {os.strerror(error)}")


@contextlib.contextmanager
def own_network(with_mounts: bool = False) -> Iterator[None]:
    """Moves this thread into a network, and mounts, of its own, and back at the end.

    Other threads stay where they are. Raises PermissionError if the system does not allow it.
    """
    names = ["net", "mnt"] if with_mounts else ["net"]
    folder = os.getcwd()
    before = {name: os.open(f"/proc/thread-self/ns/{name}", os.O_RDONLY) for name in names}
    try:
        call("unshare", sum(FLAGS[name] for name in names))
        try:
            if with_mounts:
                subprocess.run(["mount", "--make-rprivate", "/"], check=True)
            subprocess.run(["ip", "link", "set", "lo", "up"], check=True)
            yield
        finally:
            for name, descriptor in before.items():
                call("setns", descriptor, FLAGS[name])
            os.chdir(folder)
    finally:
        for descriptor in before.values():
            os.close(descriptor)
