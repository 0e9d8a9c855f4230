"""An auction behind nginx: bidders come over TLS, the operator on the machine itself."""
import json
import os
import secrets
import ssl
import tempfile
import time
import urllib.error
import urllib.request
from collections.abc import Callable
from email.message import Message
from pathlib import Path
from typing import Any

from tests.lib.paths import EXAMPLES
from tests.lib.setups import OPERATOR
from tests.lib.site import SECOND, Site
from tests.lib.waiting import wait_for

X, Y, Z = "X" * 16, "Y" * 16, "Z" * 16
OPERATORS = "operator.html"
ANYBODY = ssl.create_default_context()
ANYBODY.check_hostname, ANYBODY.verify_mode = False, ssl.CERT_NONE


def busy() -> float:
    """How many processes there are for each processor, at least 1: something may take this many
    times longer.
    """
    return max(1, os.getloadavg()[0] / (os.cpu_count() or 1))


def example(name: str) -> dict[str, Any]:
    """A set-up document of examples/."""
    return json.loads((EXAMPLES / f"{name}.json").read_text())


def bid(product: int, quantity: int, price: int) -> dict[str, int]:
    return {"product": product, "quantity": quantity, "price": price}


class Auction(Site):
    """Program, nginx, and pages. Without tie-breaking numbers the operator's page can close each
    round by itself.
    """

    def __init__(self, program: Path, setup: dict[str, Any], has_ties: bool = False) -> None:
        folder = Path(tempfile.mkdtemp(prefix="browser-"))  # nginx's workers enter no others
        super().__init__(folder, program, setup, has_ties=has_ties)

    def address(self, page: str = "") -> str:
        if page.startswith("operator"):
            return f"http://127.0.0.1:{self.inside}/{page}"
        return f"https://localhost:{self.outside}/{page}"

    def end_server(self) -> None:
        assert self.server is not None
        self.server.kill()

    def begin_conductor(self, publish: int, **more: int) -> None:
        """Starts the conductor, without a timetable. Pages are withheld for `publish` seconds after
        a closing. `more` has other settings.
        """
        self.write_settings(publish, **more)
        self.begin_auction("run", self.folder)

    def write_settings(self, publish: int, **more: int) -> None:
        """Writes the settings of the conductor and the desk."""
        files = {"setup": "setup.json", "token": "operator.token", "journal": "auction.journal"}
        url = f"http://127.0.0.1:{self.inside}"
        self.write_private("operator.token", OPERATOR)
        settings = {"url": url, "port": self.server_port, "publish": publish, **files, **more}
        (self.folder / "conductor.json").write_text(json.dumps(settings))

    def begin_desk(self) -> None:
        """Starts the desk, which needs the conductor's settings, and waits until it answers."""
        self.begin_auction("desk", self.folder)
        socket = self.folder / "inner/desk.sock"
        wait_for("the desk listens", socket.exists, 60)

    def ask(self, path: str, body: object = None) -> dict[str, Any]:
        """The page of a request of the operator's."""
        data = None if body is None else json.dumps(body).encode()
        url = f"http://127.0.0.1:{self.inside}/{path}"
        asked = urllib.request.Request(url, data, {"authorization": f"Bearer {OPERATOR}"})
        with urllib.request.urlopen(asked, timeout=60) as reply:
            return json.loads(reply.read())

    def confirm(self, number: int) -> None:
        """Confirms the closing that waits at the desk, as the second person."""
        page = self.desk("state")
        word = {"act": "confirm", "key": secrets.token_hex(16), "of": page["waiting"]["key"]}
        shown = {"round": page["round"], "stamp": page["stamp"], "typed": str(number)}
        assert self.desk("act", {**word, **shown, "given": {}})["state"] == "done"

    def ask_desk(self, act: str, given: Callable[[], dict[str, object]]) -> str:
        """Asks the desk for an act, as the second person. Returns the state of the answer. If the
        desk refuses, asks again with what is given then: the auction may have changed meanwhile.
        """
        refusals: list[str] = []

        def state() -> str:
            page = self.desk("state")
            typed = str(page["round"]) if act == "close" else ""
            word = {"act": act, "key": secrets.token_hex(16), "of": "", "given": given()}
            shown = {"round": page["round"], "stamp": page["stamp"], "typed": typed}
            try:
                return str(self.desk("act", {**word, **shown})["state"])
            except urllib.error.HTTPError as refused:
                refusals.append(refused.read().decode())
                return ""

        end = time.monotonic() + 60
        while not (answer := state()):
            assert time.monotonic() <= end, f"the desk refuses {act}: {refusals}"
            time.sleep(1)
        return answer

    def desk(self, path: str, body: object = None) -> dict[str, Any]:
        """What the desk answers to the second person."""
        data = None if body is None else json.dumps(body).encode()
        url = f"http://127.0.0.1:{self.inside}/desk/{path}"
        asked = urllib.request.Request(url, data, {"authorization": f"Bearer {SECOND}"})
        with urllib.request.urlopen(asked, timeout=60) as reply:
            found: dict[str, Any] = json.loads(reply.read())
        return found

    def close(self, number: int) -> None:
        """Closes the round as somebody else than the page."""
        self.ask("v1/close", {"round": number, "increment": 10, "ties": []})

    def put(self, token: str, number: int, *bids: dict[str, int]) -> None:
        """A sheet that comes by another way than the page."""
        url = f"http://127.0.0.1:{self.server_port}/v1/me/bids"
        body = json.dumps({"bids": bids, "round": number}).encode()
        head = {"authorization": f"Bearer {token}"}
        asked = urllib.request.Request(url, body, head, method="PUT")
        with urllib.request.urlopen(asked, timeout=60) as reply:
            assert reply.status == 200

    def head(self, address: str) -> tuple[int, Message]:
        """Status and headers of a page."""
        try:
            with urllib.request.urlopen(address, timeout=20, context=ANYBODY) as reply:
                return reply.status, reply.headers
        except urllib.error.HTTPError as refused:
            return refused.code, refused.headers

    def withhold(self) -> None:
        """Withholds all pages from now on, as at the end of a window."""
        now = int(time.time()) // 10
        for ten in range(now - 1, now + 60):
            (self.folder / "gate" / f"curtain-{ten}").touch()

    def show(self) -> None:
        """Shows pages again."""
        for file in (self.folder / "gate").glob("curtain-*"):
            file.unlink()

    def logs(self) -> str:
        """All that nginx wrote."""
        return "".join(file.read_text() for file in (self.folder / "log").iterdir())
