"""The connections that are on their way to the server: what may still change what it has.

A request that passed the inner door has a connection to nginx's socket file until its reply is
there. It also has one to the server's port, which may wait in the kernel, also after nginx was
killed.
"""
from pathlib import Path

SYN_SENT, SYN_RECV, ESTABLISHED, CLOSE_WAIT = "02", "03", "01", "08"
CONNECTED = "03"  # of a socket file
DOOR = "inner/door.sock"


def pending(port: int, proc: Path = Path("/proc/net")) -> frozenset[str]:
    """The connections to the inner door and to the server's port, each by a text that no later one
    has.
    """
    return frozenset([*at_door(proc / "unix"), *at_port(proc / "tcp", port)])


def at_door(table: Path) -> list[str]:
    """The inner door's ends of connections, by inode."""
    rows = [
        line.split()
        for line in table.read_text(encoding="utf-8", errors="replace").splitlines()[1:]
    ]
    return [
        f"door {row[6]}"
        for row in rows
        if len(row) > 7 and row[7].endswith(DOOR) and row[5] == CONNECTED
    ]


def at_port(table: Path, port: int) -> list[str]:
    """Connections to the port that have no reply yet, by both addresses: of the client while it
    connects or waits, and of the server, also if the client is gone.
    """
    found, name = [], f":{port:04X} "
    for line in table.read_text(encoding="ascii").splitlines()[1:]:
        if name not in line:
            continue
        local, remote, state = line.split()[1:4]
        if remote.endswith(f":{port:04X}") and state in (SYN_SENT, ESTABLISHED):
            found.append(f"from {local}")
        elif local.endswith(f":{port:04X}") and state in (SYN_RECV, ESTABLISHED, CLOSE_WAIT):
            found.append(f"from {remote}")
    return found
