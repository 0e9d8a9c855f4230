"""A bidder that sends its sheet over TLS again and again, and notes when, and with what answer."""
import http.client
import json
import pathlib
import ssl
import threading
import time
from collections.abc import Callable
from typing import Any, NamedTuple


class Sent(NamedTuple):
    """A sheet that was sent: between which times, the code of its answer, and its round."""

    begun: float
    ended: float
    code: str
    number: int


class Reader:
    """A connection of a bidder to nginx."""

    def __init__(self, folder: pathlib.Path, port: int, name: str) -> None:
        context = ssl.create_default_context(cafile=folder / "cert.pem")
        self.token = name * 16
        self.connection = http.client.HTTPSConnection(
            "localhost", port, timeout=20, context=context
        )

    def ask(self, method: str, path: str, value: Any = None) -> tuple[int, Any]:
        """The status and the page of a reply."""
        body = None if value is None else json.dumps(value)
        self.connection.request(method, path, body, {"authorization": f"Bearer {self.token}"})
        reply = self.connection.getresponse()
        return reply.status, json.loads(reply.read())


class Bidder(threading.Thread):
    """Sends a sheet of the current round until the day is over. In the last round X wants less."""

    def __init__(
        self,
        reader: Reader,
        rounds: int,
        name: str,
        waits: Callable[[], float],
        over: threading.Event,
    ) -> None:
        super().__init__(daemon=True)
        self.reader, self.rounds, self.name, self.waits, self.over = (
            reader,
            rounds,
            name,
            waits,
            over,
        )
        self.sent: list[Sent] = []
        self.fault: Exception | None = None

    def run(self) -> None:
        try:
            while not self.over.is_set():
                self.send()
                time.sleep(self.waits())
        except Exception as fault:  # the day looks at it in the end
            self.fault = fault

    def price(self, number: int) -> int:
        """The clock price of a round."""
        if number == 1:
            return 100
        results = self.reader.ask("GET", f"/public/rounds/{number - 1}.json")[1]
        return results["products"][0]["next"] or 100

    def send(self) -> None:
        """Sends a sheet for the round that the timetable names, and notes what came."""
        number = self.reader.ask("GET", "/public/timetable.json")[1]["round"]
        quantity = 2 if self.name == "X" and number < self.rounds else 1
        bids = [{"price": self.price(number), "product": 0, "quantity": quantity}]
        begun = time.time()
        _, page = self.reader.ask("PUT", "/v1/me/bids", {"bids": bids, "round": number})
        self.sent.append(Sent(begun, time.time(), page.get("code", "accepted"), number))
