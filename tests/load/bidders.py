"""Bidders over TLS, whose sheets follow only from what they see and from a seed."""
import asyncio
import json
import random
import ssl
import time
from typing import Any

TLS = ssl.create_default_context()
TLS.check_hostname, TLS.verify_mode = False, ssl.CERT_NONE  # the certificate of a test is its own
SECONDS = 20
MOST_PRODUCTS = 40
Json = dict[str, Any]


def address(number: int) -> str:
    """An address of this machine for each client, so that none counts against another's rate."""
    return f"127.1.{1 + number // 250}.{1 + number % 250}"


def head(method: str, path: str, token: str, *lines: str) -> bytes:
    """The head of a request."""
    token_line = f"authorization: Bearer {token}"
    rows = (f"{method} {path} HTTP/1.1", "host: localhost", token_line, *lines, "", "")
    return "\r\n".join(rows).encode()


class Bidder:
    """A bidder with an open connection.

    `waits` are the seconds of its requests, and `seen` the pages by method and path.
    """

    def __init__(self, number: int, token: str, products: int, port: int) -> None:
        self.number, self.token, self.port = number, token, port
        self.random = random.Random(f"good {number}")
        wanted = self.random.sample(range(products), min(products, MOST_PRODUCTS))
        self.wants = {
            product: (self.random.randrange(1, 4), 100 * self.random.randrange(10, 26))
            for product in sorted(wanted)
        }
        self.waits: list[float] = []
        self.seen: dict[str, bytes] = {}
        self.streams: tuple[asyncio.StreamReader, asyncio.StreamWriter] | None = None

    async def ask(self, method: str, path: str, value: object = None) -> Json:
        """The page for a path. Each request is one that the rules allow, so its status is 200."""
        body = json.dumps(value).encode() if value is not None else b""
        text = head(method, path, self.token, f"content-length: {len(body)}") + body
        begun, what = time.monotonic(), f"bidder {self.number}: {method} {path}"
        try:
            status, page = await asyncio.wait_for(self.exchange(text), SECONDS)
        except (OSError, EOFError, asyncio.TimeoutError) as error:
            raise AssertionError(f"{what}: {error!r}") from error
        self.waits.append(time.monotonic() - begun)
        assert status == 200, f"{what}: {status} {page[:200]!r}"
        self.seen[f"{method} {path}"] = page
        return dict(json.loads(page))

    async def exchange(self, text: bytes) -> tuple[int, bytes]:
        """The status and the page for a request. The first one opens the connection."""
        if self.streams is None:
            self.streams = await asyncio.open_connection(
                "127.0.0.1", self.port, ssl=TLS, local_addr=(address(self.number), 0)
            )
        reader, writer = self.streams
        writer.write(text)
        reply = (await reader.readuntil(b"\r\n\r\n")).lower()
        length = int(reply.partition(b"content-length: ")[2].split(b"\r\n")[0])
        return int(reply.split()[1]), await reader.readexactly(length)

    def close(self) -> None:
        """Closes the connection."""
        if self.streams is not None:
            self.streams[1].close()

    def sheet(self, number: int, account: Json, last: Json | None) -> Json:
        """Its sheet: in round 1 all that it wants, and later what its limits pay for."""
        bids = []
        for product, (quantity, limit) in self.wants.items():
            if last is None:
                bids.append({"price": 1000, "product": product, "quantity": quantity})
            elif blocks := account["demands"][product]:
                row = last["products"][product]
                stays = limit >= row["next"]
                price = row["next"] if stays else max(row["posted"], limit)
                quantity = blocks if stays else 0
                bids.append({"price": price, "product": product, "quantity": quantity})
        return {"bids": bids, "round": number}

    async def pause(self) -> None:
        """Waits a little, as people and pages do."""
        await asyncio.sleep(self.random.random())

    async def bid(self, number: int, last: Json | None) -> Json:
        """Plays a round until its closing. Returns its sheet."""
        await self.pause()
        status, account = await self.ask("GET", "/v1/status"), await self.ask("GET", "/v1/me")
        assert not status["ended"] and account["round"] == number, (status, account["round"])
        assert account["name"] == f"G{self.number}", "another bidder's account"
        sheet = self.sheet(number, account, last)
        await self.pause()
        await self.ask("PUT", "/v1/me/bids", sheet)
        assert await self.ask("GET", "/v1/me/bids") == sheet, "another sheet is in force"
        return sheet

    async def look(self, number: int) -> Json:
        """Looks at a closed round. Returns its page."""
        await self.pause()
        await self.ask("GET", f"/v1/me/rounds/{number}")
        return await self.ask("GET", f"/v1/rounds/{number}")
