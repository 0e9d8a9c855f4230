"""Free ports of this machine, which no two tests draw at the same time."""
import collections
import random
import socket

# Ports below those that the system gives to clients (from 32,768 on), in random order. A UDP socket
# with the port's number marks it as taken, for all processes that run, until this one has drawn 300
# more. Otherwise servers that start at the same time would race for a port.
PORTS = range(10_000, 32_700)
DRAW = random.SystemRandom()
MARKS: collections.deque[socket.socket] = collections.deque(maxlen=300)


def free_port(count: int = 1) -> int:
    """The first of `count` ports in a row, on which nothing listens, and which no process has
    marked.
    """
    while True:
        first = DRAW.choice(PORTS)
        marks = [mark for port in range(first, first + count) if (mark := marked(port))]
        MARKS.extend(marks)
        if len(marks) == count:
            return first


def marked(port: int) -> socket.socket | None:
    """The mark of a free port."""
    mark = socket.socket(type=socket.SOCK_DGRAM)
    with socket.socket() as free:
        # Until a process that another thread is starting runs its own program, it has this socket
        # open too. A server may then listen on the port only if both sockets say so
        free.setsockopt(socket.SOL_SOCKET, socket.SO_REUSEADDR, 1)
        try:
            mark.bind(("127.0.0.1", port))
            free.bind(("127.0.0.1", port))
        except OSError:
            mark.close()
            return None
    return mark
