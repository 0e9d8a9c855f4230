"""schemas/server.json has each page, status, and code of the program, and no other."""
import json
import pathlib
import re
import resource

import pytest
from jsonschema import Draft202012Validator

from auction.explain.schemas import schema
from tests.lib.http import answer_to
from tests.lib.mutated_requests import request
from tests.lib.paths import EXAMPLES, TOP
from tests.lib.replies import CODES
from tests.lib.server import Server
from tests.schemas import auctions
from tests.schemas.auctions import Reply, Sent
from tests.schemas.described import FILES, OTHER, SERVER, Entry, entries, examples, is_described

FORMATS = (TOP / "docs" / "formats.md").read_text()
REFUSED_FOR_MEMORY = 503


@pytest.mark.parametrize("file", [file for file in FILES if file != "server.json"])
def test_schema_is_one_of_2020_12(file: str) -> None:
    Draft202012Validator.check_schema(schema(file))


# ---- The tables of docs/formats.md


def test_routes_are_those_of_the_formats() -> None:
    listed = re.findall(r"^\| `(/v1/[^`]*)` \| ([A-Z, ]+) \|", FORMATS, re.M)
    routes = {(method, route) for route, methods in listed for method in methods.split(", ")}
    assert routes == {(entry.method, entry.route) for entry in entries() if entry.route != OTHER}


def test_codes_are_those_of_the_formats() -> None:
    cells = re.findall(r"^\| (\d{3} [^|]*)\|", FORMATS, re.M)
    listed = {pair for cell in cells for pair in re.findall(r"(\d{3}) ([a-z_]+)", cell)}
    codes = {(int(status), code) for status, code in listed}
    assert len(codes) >= 15
    assert codes <= {(entry.status, entry.code) for entry in entries()}


def test_codes_are_those_of_the_table_of_replies() -> None:
    codes = {(status, code) for status, codes in CODES.items() for code in codes}
    described = {(entry.status, entry.code) for entry in entries()}
    assert codes == {pair for pair in described if pair[0] not in (200, REFUSED_FOR_MEMORY)}


# ---- Auctions with each page of each route


@pytest.fixture(scope="module")
def replies(program: pathlib.Path, tmp_path_factory: pytest.TempPathFactory) -> list[Reply]:
    """The replies of auctions in which each refusal but out of memory comes."""
    return list(auctions.replies(program, tmp_path_factory.mktemp("auctions")))


@pytest.fixture(scope="module")
def out_of_memory(program: pathlib.Path) -> Reply:
    """The reply of a server that may allocate no more memory after it is ready."""
    sent = Sent("PUT", "/v1/me/bids", request("PUT /v1/me/bids", "X", b" " * 1_048_576))
    with Server(program, EXAMPLES / "one_product.json", connections=1) as server:
        pages = int(pathlib.Path(f"/proc/{server.child.pid}/statm").read_text().split()[0])
        size = pages * resource.getpagesize()
        resource.prlimit(server.child.pid, resource.RLIMIT_AS, (size, size))
        status, page = answer_to(server.port, sent.text)
        assert server.ended() == (0, "")
    return Reply(sent, status, page.decode())


def test_each_reply_of_the_auctions_is_described(replies: list[Reply]) -> None:
    assert [reply for reply in replies if not is_described(*reply.described)] == []


def test_reply_out_of_memory_is_described(out_of_memory: Reply) -> None:
    assert out_of_memory.status == REFUSED_FOR_MEMORY
    assert is_described(*out_of_memory.described)


def test_each_described_status_and_code_comes_and_no_other(replies: list[Reply]) -> None:
    came = {Entry(one.sent.method, one.sent.route, one.status, one.code) for one in replies}
    assert came == {entry for entry in entries() if entry.status != REFUSED_FOR_MEMORY}


def test_each_example_is_what_a_server_sent_or_received(
    replies: list[Reply], out_of_memory: Reply
) -> None:
    bodies = [one.sent.text.partition(b"\r\n\r\n")[2].decode(errors="replace") for one in replies]
    texts = {*bodies, *(one.page for one in [*replies, out_of_memory])}
    shown = [json.dumps(example, separators=(",", ":")) for example in examples(SERVER)]
    assert [text for text in shown if text not in texts] == []
    assert shown
