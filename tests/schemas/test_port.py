"""The description of the bidders' port behind nginx has each status and code that comes there."""
import pathlib
import re
import time
from collections.abc import Iterator

import pytest

from tests.lib.site import Site
from tests.lib.tls import ADDRESSES, Client
from tests.nginx.requests import head
from tests.schemas.described import Entry
from tests.schemas.port import BODY, BY_NGINX, SETUP, TOKENS, Description, Operation, Port
from tests.schemas.port import built, page_of, site_of, target_of

pytestmark = pytest.mark.needs("nginx", "openssl")

# What is described and does not come here: a server that is out of memory or answers too late, and
# the faults of a sheet, which only the server finds.
NOT_TRIED = {(503, "memory"), (503, "proxy"), (504, "proxy"), (504, "")}
PUT = ("PUT", "/v1/me/bids")


def is_tried(entry: Entry) -> bool:
    """Whether a described status and code comes here."""
    is_fault = entry.status == 422 and entry.code != "shape"
    return not is_fault and entry[2:] not in NOT_TRIED


@pytest.fixture(scope="module")
def description(tmp_path_factory: pytest.TempPathFactory) -> Description:
    """The description of the port."""
    return Description(built(tmp_path_factory.mktemp("description") / "openapi.json"))


@pytest.fixture(scope="module")
def port(description: Description, program: pathlib.Path) -> Iterator[Port]:
    """nginx, at first without a server, then with one to the end of an auction."""
    with site_of(None, SETUP) as site:
        port = Port(site, description)
        send_heads(port)
        site.program = program
        site.begin()
        publish(site)
        send_sheets(port)
        send_after_the_end(port)
        send_behind_the_curtain(port)
        send_lower_case(port)
        repeat(port)
        yield port


def send_heads(port: Port) -> None:
    """Sends each operation to nginx without a server: wrong heads, long ones, and no token."""
    (port.site.folder / "public/commitment.json").unlink()
    for operation, is_secured in port.secured():
        method, path = operation
        target = target_of(path)
        line = f"{method} {target} HTTP/1.1\r\nhost: x\r\nauthorization: Bearer {TOKENS[0]}\r\n"
        port.send(operation, f"{method} {target} HTTP/1.1\r\n\r\n")
        port.send(operation, f"{line}content-length: 1048577\r\n\r\n")
        port.send(operation, f"{line}x: {'y' * 5000}\r\n\r\n")
        port.send(operation, f"{line}transfer-encoding: gzip\r\n\r\n")
        port.ask(operation, token=TOKENS[1])
        if is_secured:
            port.ask(operation)


def publish(site: Site) -> None:
    """Writes each published file, and a receipt for each bidder."""
    names = ("commitment", "draw", "names", "timetable", "announcements", "winners", "rounds/1")
    files = [site.folder / f"public/{name}.json" for name in names]
    folders = [site.folder / "receipts" / row["name"] for row in SETUP["bidders"]]
    for file in [*files, *(folder / "1-1.json" for folder in folders)]:
        file.parent.mkdir(parents=True, exist_ok=True)
        file.write_text("{}")


def send_sheets(port: Port) -> None:
    """Sends sheets while no window is open, in one, and after the end."""
    token, gate = next(port.tokens), port.site.folder / "gate/open"
    gate.unlink()
    port.ask(PUT, token=token, body=BODY)
    gate.touch()
    for body in (BODY, b"{", b"{}", BODY.replace(b'"round": 1', b'"round": 2')):
        port.ask(PUT, token=token, body=body)
    closing = b'{"increment":10,"round":1,"ties":[]}'
    page_of(port.site, "POST /v1/close", SETUP["operator"], closing)
    port.ask(PUT, token=token, body=BODY)


def send_after_the_end(port: Port) -> None:
    """Sends each operation after the end: with a token, with a version, another round or method."""
    token = next(port.tokens)
    for operation, _ in port.secured():
        port.ask(operation, token=token)
        if port.description.codes(operation, 304):
            port.ask(operation, "if-none-match: *", token=token)
        if "{n}" in operation[1]:
            port.ask(operation, number=99, token=token)
        target = target_of(operation[1])
        line = f"DELETE {target} HTTP/1.1\r\nhost: x\r\nauthorization: Bearer {token}\r\n"
        port.send(operation, f"{line}\r\n")


def send_behind_the_curtain(port: Port) -> None:
    """Sends each operation while no page shows a new state."""
    token, gate, ten = next(port.tokens), port.site.folder / "gate", int(time.time()) // 10
    curtains = [gate / f"curtain-{number}" for number in range(ten - 1, ten + 4)]
    for curtain in curtains:
        curtain.touch()
    for operation, _ in port.secured():
        body = BODY if operation == PUT else b""
        port.withheld[operation] = port.ask(operation, token=token, body=body) == 503
    for curtain in curtains:
        curtain.unlink()


def send_lower_case(port: Port) -> None:
    """Sends each operation that needs a token with one in lower case, which nginx accepts."""
    token = next(port.tokens).lower()
    for operation in [operation for operation, is_secured in port.secured() if is_secured]:
        body = BODY if operation == PUT else b""
        port.lower_case[operation] = port.ask(operation, number=2, token=token, body=body)


def repeat(port: Port) -> None:
    """Repeats each operation from an address of its own, until it is refused for its rate."""
    for operation, is_secured in port.secured():
        client, token = Client(port.site.outside), next(port.tokens) if is_secured else None
        body = BODY if operation == PUT else b""
        limit = port.description.operations[operation]["x-limits"][0]
        if limit in ("small_files", "public"):
            flood(port, operation)
            continue
        for _ in range(3 * port.description.document["x-limits"][limit]["more_at_once"]):
            status = port.ask(operation, token=token, body=body, client=client)
            port.repeated[operation] = status
            if status == 429:
                break


def flood(port: Port, operation: Operation) -> None:
    """Sends an operation's request many times at once from one address, until one is refused.

    It asks for what has changed, so that replies are small, and a busy machine is fast enough.
    """
    address = next(ADDRESSES)
    tag = re.search(r"\netag: (\S+)", Client(port.site.outside, address).ask(*operation).head)
    text = head(*operation, None, *([f"if-none-match: {tag[1]}"] if tag else []))
    for _ in range(40):
        client = Client(port.site.outside, address)
        client.send(text * 900)
        for _ in range(900):
            reply = client.reply(operation[0])
            port.repeated[operation] = reply.status
            if reply.status == 429:
                port.note(operation, reply)
                return
        client.close()


def test_pages_of_the_server_are_withheld_behind_the_curtain(port: Port) -> None:
    wanted = {each: each != PUT and each[1].startswith("/v1/") for each in port.withheld}
    assert port.withheld == wanted


def test_token_in_lower_case_is_refused_by_the_server(port: Port) -> None:
    wanted = {each: 404 if each[1] in BY_NGINX else 401 for each in port.lower_case}
    assert port.lower_case == wanted
    assert len(wanted) >= 6


def test_each_operation_is_refused_for_its_rate(port: Port) -> None:
    assert port.repeated == dict.fromkeys(port.description.operations, 429)


def test_each_reply_is_described(port: Port) -> None:
    assert [came for came in port.came if not came.is_described] == []


def test_each_described_status_and_code_comes_and_no_other(port: Port) -> None:
    came = {one.entry for one in port.came}
    described = port.description.entries()
    assert came == {entry for entry in described if is_tried(entry)}
    assert len(came) >= 150
