"""Slow and hostile clients, each kind in a process of its own, so that it slows no bidder.

Their bidders have no eligibility, so nothing that they do changes the auction, and each page with
blocks is another bidder's.
"""
import asyncio
import multiprocessing.synchronize
import random
import re
import socket
import time
from collections import Counter
from collections.abc import Callable, Coroutine
from typing import Any, NamedTuple

from tests.lib.mutated_requests import mutated
from tests.load.bidders import TLS, address, head

# What no reply has to a bidder without eligibility, or to a client without a token: another's name,
# blocks, and the operator's pages.
FOREIGN = re.compile(
    rb'"name":"G\d|"quantity":[1-9]|"activity":[1-9]|"demands":\[[0,]*[1-9]|"bidders":\[|"closed":'
)
FAULTS = (OSError, EOFError, asyncio.TimeoutError)
SLOW = (
    "says nothing",
    "sends a byte of a head each second",
    "sends a byte of a body each second",
    "never reads",
)


class Clients(NamedTuple):
    """The clients of a kind, by number and token, and until when they play."""

    kind: str
    port: int
    tokens: dict[int, str]
    operator: str
    end: float
    stop: multiprocessing.synchronize.Event

    def is_over(self) -> bool:
        return self.stop.is_set() or time.monotonic() > self.end


async def connected(
    port: int, number: int, is_small: bool = False
) -> tuple[asyncio.StreamReader, asyncio.StreamWriter]:
    """A connection over TLS. A small one stores nearly nothing unread."""
    peer = socket.socket()
    peer.setblocking(False)
    if is_small:
        peer.setsockopt(socket.SOL_SOCKET, socket.SO_RCVBUF, 2048)
    peer.bind((address(number), 0))
    await asyncio.get_running_loop().sock_connect(peer, ("127.0.0.1", port))
    limit = 1024 if is_small else 65_536
    return await asyncio.open_connection(
        sock=peer, ssl=TLS, server_hostname="localhost", limit=limit
    )


async def drip(clients: Clients, writer: asyncio.StreamWriter, text: bytes) -> None:
    """Sends a byte a second."""
    for byte in text:
        if clients.is_over():
            return
        writer.write(bytes([byte]))
        await writer.drain()
        await asyncio.sleep(1)


async def idle(clients: Clients) -> None:
    """Does nothing until the end."""
    while not clients.is_over():
        await asyncio.sleep(0.2)


async def be_slow(clients: Clients, number: int, kind: str) -> None:
    """Is slow over one connection."""
    token = clients.tokens[number]
    if kind == "says nothing":  # not even TLS
        local = (address(number), 0)
        _, writer = await asyncio.open_connection("127.0.0.1", clients.port, local_addr=local)
        await idle(clients)
    else:
        _, writer = await connected(clients.port, number, kind == "never reads")
    if "head" in kind:
        await drip(clients, writer, head("GET", "/v1/me", token)[:-2] + b"x: y" * 1000)
    elif "body" in kind:
        writer.write(head("PUT", "/v1/me/bids", token, "content-length: 1000000"))
        await drip(clients, writer, b" " * 1000)
    elif kind == "never reads":
        writer.write(head("GET", "/v1/products", token) * 10)
        await idle(clients)
    writer.transport.abort()


async def slow(clients: Clients, number: int, counted: Counter[str], found: list[str]) -> None:
    """A client that is slow in one of four ways, again and again."""
    kind = SLOW[number % len(SLOW)]
    while not clients.is_over():
        counted[kind] += 1
        try:
            await be_slow(clients, number, kind)
        except FAULTS:
            await asyncio.sleep(0.2)


async def exchange(port: int, number: int, text: bytes) -> bytes:
    """Sends this over a connection of its own. Returns what comes before it is quiet or ends."""
    reply, writer = b"", None
    try:
        reader, writer = await asyncio.wait_for(connected(port, number), 5)
        writer.write(text)
        await asyncio.wait_for(writer.drain(), 2)
        while piece := await asyncio.wait_for(reader.read(65_536), 0.5):
            reply += piece
    except FAULTS:
        pass
    if writer:
        writer.transport.abort()
    return reply


async def hostile(clients: Clients, number: int, counted: Counter[str], found: list[str]) -> None:
    """A client that sends mutated requests with its own token, none, or the operator's."""
    chance = random.Random(f"hostile {number}")
    while not clients.is_over():
        text = mutated(chance)
        for letter in (b"X", b"Y", b"Z"):
            text = text.replace(letter * 16, clients.tokens[number].encode())
        text = text.replace(b"OPERATOROPERATOR", clients.operator.encode())
        if chance.random() < 0.7:  # without it nginx refuses the head
            text = text.replace(b"\r\n", b"\r\nhost: localhost\r\n", 1)
        reply = await exchange(clients.port, number, text)
        words = reply.split()
        counted[words[1].decode("latin1") if len(words) > 1 else "no reply"] += 1
        if FOREIGN.search(reply) or b"<html>" in reply.lower():  # nginx refuses in JSON too
            found.append(f"{text[:600]!r} is answered {reply[:600]!r}")
        await asyncio.sleep(chance.random() * 0.2)


Play = Callable[[Clients, int, Counter[str], list[str]], Coroutine[Any, Any, None]]
KINDS: dict[str, Play] = {"slow": slow, "hostile": hostile}


async def play_all(clients: Clients) -> tuple[Counter[str], list[str]]:
    """Plays all clients of a kind at once. Returns what was counted, and the faults."""
    counted: Counter[str] = Counter()
    found: list[str] = []
    play = KINDS[clients.kind]
    tasks = [asyncio.create_task(play(clients, one, counted, found)) for one in clients.tokens]
    await idle(clients)
    # Each sees the end within some seconds. A cancelled wait_for may swallow the cancellation.
    done, late = await asyncio.wait(tasks, timeout=10)
    found += [repr(task.exception()) for task in done if task.exception()]
    return counted, found + [f"{clients.kind}: a client does not end"] * len(late)


def play(clients: Clients, results: Any) -> None:
    """Plays all clients of a kind. What was counted, and the faults, go into the queue."""
    results.put((clients.kind, *asyncio.run(play_all(clients))))
