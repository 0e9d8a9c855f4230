"""The bidders' port behind nginx, compared with its description: each reply to each operation."""
import contextlib
import json
import pathlib
import subprocess
from collections.abc import Iterator
from typing import Any, NamedTuple

from tests.lib.folders import open_folder
from tests.lib.http import answer_to, text_of
from tests.lib.paths import TOP
from tests.lib.setups import bidder, product, setup
from tests.lib.site import Site
from tests.lib.tls import Client, Reply
from tests.schemas.described import Entry

# The auction in which refusals are tried. Each limit is reached by another bidder, so that no limit
# hides another.
SETUP = setup([product("A", 2)], [bidder(f"B{n}", f"BIDDERT0KEN{n:05}", 2) for n in range(16)])
TOKENS = [row["token"] for row in SETUP["bidders"]]
SHEET = {"bids": [{"price": 100, "product": 0, "quantity": 1}], "round": 1}
BODY = json.dumps(SHEET).encode()
# nginx asks whether these tokens are known. The server does not see them.
BY_NGINX = ("/v1/rounds/{n}", "/receipts/{n}/{sheet}.json")

Operation = tuple[str, str]


def built(file: pathlib.Path) -> Any:
    """The description, built into a file."""
    subprocess.run([TOP / "tools/bundle", file], check=True, timeout=60)
    return json.loads(file.read_text())


class Description:
    """The description of the port, by operation and status."""

    def __init__(self, document: Any) -> None:
        self.document = document
        self.operations: dict[Operation, Any] = {
            (method.upper(), path): item[method]
            for path, item in document["paths"].items()
            for method in item.keys() - {"parameters"}
        }

    def codes(self, operation: Operation, status: int) -> list[str] | None:
        """The codes of a status, [""] if its page is no refusal, or None if it is not described."""
        response = self.operations[operation]["responses"].get(str(status))
        if response and "$ref" in response:
            name = response["$ref"].rpartition("/")[2]
            response = self.document["components"]["responses"][name]
        return None if response is None else response.get("x-codes", [""])

    def entries(self) -> set[Entry]:
        """All described statuses and codes."""
        return {
            Entry(*operation, int(status), code)
            for operation, value in self.operations.items()
            for status in value["responses"]
            for code in self.codes(operation, int(status)) or []
        }


def page_of(site: Site, line: str, token: str, body: bytes = b"") -> Any:
    """The page of the server, asked without nginx."""
    return json.loads(answer_to(site.server_port, text_of(line, token, body))[1])


def target_of(path: str, number: int = 1) -> str:
    """A path with its parameters replaced by numbers."""
    return path.replace("{n}", str(number)).replace("{sheet}", "1")


@contextlib.contextmanager
def site_of(program: pathlib.Path | None, setup: Any) -> Iterator[Site]:
    """nginx, and the program before which it is, in a folder of their own."""
    with open_folder() as folder:
        site = Site(folder, program, setup)
        try:
            yield site
        finally:
            site.stop()


class Came(NamedTuple):
    """What an operation was answered, and whether this is described."""

    entry: Entry
    is_described: bool
    reply: Reply


class Port:
    """nginx in front of a server, and what each operation was answered."""

    def __init__(self, site: Site, description: Description) -> None:
        self.site, self.description = site, description
        self.came: list[Came] = []
        self.withheld: dict[Operation, bool] = {}  # whether 503 came behind the curtain
        self.lower_case: dict[Operation, int] = {}  # the statuses of tokens in lower case
        self.repeated: dict[Operation, int] = {}  # the last statuses of repeated operations
        self.tokens = iter(TOKENS[2:])

    def secured(self) -> Iterator[tuple[Operation, bool]]:
        """Yields each operation, and whether it needs a token."""
        for operation, value in self.description.operations.items():
            yield operation, bool(value["security"])

    def ask(
        self,
        operation: Operation,
        *lines: str,
        number: int = 1,
        token: str | None = None,
        body: bytes = b"",
        client: Client | None = None,
    ) -> int:
        """Sends an operation's request, and notes the reply. Returns the status."""
        method, path = operation
        client = client or Client(self.site.outside)
        reply = client.ask(method, target_of(path, number), token, *lines, body=body)
        return self.note(operation, reply)

    def send(self, operation: Operation, text: str) -> None:
        """Sends these bytes instead of an operation's request."""
        client = Client(self.site.outside)
        client.send(text.encode())
        self.note(operation, client.reply(operation[0]))

    def note(self, operation: Operation, reply: Reply) -> int:
        """Notes a reply. Returns its status."""
        codes = self.description.codes(operation, reply.status)
        page: Any = reply.json if operation[0] != "HEAD" and reply.status >= 400 else None
        code = "" if page is None else page["code"]
        is_described = codes is not None and code in codes
        is_described &= page is None or page["status"] == reply.status
        lines = {
            "retry-after: 1": reply.status in (429, 502, 503, 504),
            "www-authenticate: bearer": reply.status == 401,
        }
        is_described &= all((f"\n{line}" in reply.head) == wanted for line, wanted in lines.items())
        self.came.append(Came(Entry(*operation, reply.status, code), is_described, reply))
        return reply.status
