"""Actions in a process of another user of the machine, and in a network of their own."""
import contextlib
import ctypes
import json
import os
import pwd
import signal
import subprocess
import sys
from collections.abc import Callable, Iterator
from typing import Any

CLONE_NEWNET = 0x40000000
SECONDS = 20
LIBC = ctypes.CDLL(None, use_errno=True)


class AsUser:
    """An action in a process of this user, which runs while the caller continues."""

    def __init__(self, name: str, action: Callable[[], Any]) -> None:
        self.reading, writing = os.pipe()
        self.child = os.fork()
        if self.child == 0:
            perform(name, action, writing)
        os.close(writing)

    def result(self) -> Any:
        """What the action returned, as JSON carries it, or None if it failed."""
        with os.fdopen(self.reading, "rb") as reader:
            text = reader.read()
        os.waitpid(self.child, 0)
        return json.loads(text or b"null")


def perform(name: str, action: Callable[[], Any], writing: int) -> None:
    """Becomes a user, acts, and ends this process."""
    signal.alarm(SECONDS)
    try:
        user = pwd.getpwnam(name)
        os.setgroups([])
        os.setresgid(user.pw_gid, user.pw_gid, user.pw_gid)
        os.setresuid(user.pw_uid, user.pw_uid, user.pw_uid)
        os.write(writing, json.dumps(action()).encode())
    except Exception as error:
        print(f"{name}: {error!r}", file=sys.stderr, flush=True)
    finally:
        os._exit(0)


def as_user(name: str, action: Callable[[], Any]) -> Any:
    """What an action returns in a process of this user."""
    return AsUser(name, action).result()


@contextlib.contextmanager
def own_network() -> Iterator[None]:
    """Moves this thread, and what it starts, to a network namespace of its own."""
    before = os.open("/proc/thread-self/ns/net", os.O_RDONLY)
    if LIBC.unshare(CLONE_NEWNET):
        raise OSError(ctypes.get_errno(), "unshare")
    try:
        subprocess.run(["ip", "link", "set", "lo", "up"], check=True)
        yield
    finally:
        if LIBC.setns(before, CLONE_NEWNET):
            raise OSError(ctypes.get_errno(), "setns")
        os.close(before)
