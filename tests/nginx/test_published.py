"""Files that nginx serves without the server: what is published, and receipts."""
import json
import pathlib
from collections.abc import Callable
from concurrent.futures import ThreadPoolExecutor

import pytest

from tests.lib.site import Site
from tests.lib.tls import Client, connected
from tests.nginx.recorder import Recorder
from tests.nginx.requests import UNKNOWN, Bidder, get, head, replies_in

PUBLISHED = (
    "commitment",
    "draw",
    "names",
    "timetable",
    "announcements",
    "winners",
    "rounds/1",
    "rounds/12",
)
NEVER_SHOWN = (
    "/public/plan.json",
    "/public/rounds/01.json",
    "/public/rounds/x.json",
    "/public/rounds/",
    "/public/",
    "/public/rounds/1.json.new",
    "/public/../setup.json",
    "/public/%2e%2e/setup.json",
    "/plan.json",
    "/kept/results-1.json",
    "/kept/chain.json",
    "/gate/open",
    "/public/timetable.json%0a",
)
READERS, FILES = 100, 100


@pytest.fixture
def published(site: Site) -> Site:
    """nginx with the files that the conductor publishes, and with some that nobody must see."""
    (site.folder / "public/rounds").mkdir(parents=True, exist_ok=True)
    for name in PUBLISHED:
        (site.folder / f"public/{name}.json").write_text(json.dumps({"file": name}))
    for name in ("public/plan", "public/rounds/01", "public/rounds/x", "kept/results-1", "plan"):
        (site.folder / f"{name}.json").write_text("{}")
    return site


@pytest.mark.parametrize("name", PUBLISHED)
def test_a_published_file_is_for_everyone_and_asked_for_again_each_time(
    published: Site, recorder: Recorder, name: str
) -> None:
    reply = get(published, f"/public/{name}.json")
    assert (reply.status, reply.json) == (200, {"file": name})
    assert "\ncache-control: no-cache" in reply.head
    assert not recorder.seen


@pytest.mark.parametrize("name", PUBLISHED)
def test_a_published_file_comes_only_if_it_has_changed(published: Site, name: str) -> None:
    head = get(published, f"/public/{name}.json").head
    tag = head.partition("\netag: ")[2].split("\r")[0]
    assert get(published, f"/public/{name}.json", None, f"if-none-match: {tag}").status == 304


@pytest.mark.parametrize("name", PUBLISHED)
def test_head_of_a_published_file_is_answered(published: Site, name: str) -> None:
    assert get(published, f"/public/{name}.json", method="HEAD").status == 200


@pytest.mark.parametrize("path", NEVER_SHOWN)
def test_no_other_file_is_shown(published: Site, path: str) -> None:
    assert get(published, path).refuses(404, "no_page")


@pytest.mark.parametrize("method", ["PUT", "POST", "DELETE"])
def test_a_published_file_cannot_be_changed(published: Site, method: str) -> None:
    client = Client(published.outside)
    assert client.ask(method, "/public/timetable.json", body=b"x").refuses(405, "method")


def files_read(port: int) -> int:
    """How many of a reader's requests for the timetable are answered by the file."""
    texts = [head("GET", "/public/timetable.json")] * FILES
    return sum(page.startswith(b'{"file"') for _, page in replies_in(connected(port), texts))


def test_10_000_requests_for_a_published_file_cost_the_server_nothing(
    published: Site, recorder: Recorder
) -> None:
    with ThreadPoolExecutor(20) as pool:
        files = sum(pool.map(files_read, [published.outside] * READERS))
    assert files == READERS * FILES == 10_000
    assert not recorder.seen


# ---- Receipts

RECEIPTS = {"/receipts/1/1.json": "1-1", "/receipts/1/2.json": "1-2", "/receipts/12/3.json": "12-3"}


def write_receipt(folder: pathlib.Path, bidder: Bidder, sheet: str) -> None:
    """Writes a file where the receipt of a sheet is."""
    file = folder / "receipts" / bidder.name / f"{sheet}.json"
    file.parent.mkdir(parents=True, exist_ok=True)
    file.write_text(json.dumps({"of": bidder.name, "sheet": sheet}))


@pytest.mark.parametrize("path, sheet", RECEIPTS.items())
def test_a_receipt_is_for_its_own_bidder(
    site: Site, recorder: Recorder, bidder: Bidder, path: str, sheet: str
) -> None:
    write_receipt(site.folder, bidder, sheet)
    reply = get(site, path, bidder.token)
    assert (reply.status, reply.json) == (200, {"of": bidder.name, "sheet": sheet})
    assert "\ncache-control: no-store" in reply.head
    assert not recorder.seen


def test_a_bidder_sees_no_receipt_of_another(site: Site, new_bidder: Callable[[], Bidder]) -> None:
    one, other = new_bidder(), new_bidder()
    write_receipt(site.folder, one, "1-2")
    write_receipt(site.folder, other, "1-1")
    assert get(site, "/receipts/1/1.json", other.token).json == {"of": other.name, "sheet": "1-1"}
    for path in ("/receipts/1/2.json", "/receipts/12/3.json"):
        assert get(site, path, other.token).refuses(404, "no_page")


@pytest.mark.parametrize("token", [None, UNKNOWN], ids=["no token", "an unknown token"])
@pytest.mark.parametrize("path", ["/receipts/1/1.json", "/receipts/9/9.json"])
def test_a_receipt_needs_a_bidders_token(
    site: Site, bidder: Bidder, path: str, token: str | None
) -> None:
    write_receipt(site.folder, bidder, "1-1")
    assert get(site, path, token).refuses(401, "token")


@pytest.mark.parametrize(
    "path",
    ["", "NAME/1-1.json", "1-1.json", "1/01.json", "1/1.json%0a", "1/"],
)
def test_no_list_of_receipts_is_shown(
    site: Site, recorder: Recorder, bidder: Bidder, path: str
) -> None:
    write_receipt(site.folder, bidder, "1-1")
    path = "/receipts/" + path.replace("NAME", bidder.name)
    assert get(site, path, bidder.token).refuses(404, "no_page")
    assert not recorder.seen


def test_a_receipt_cannot_be_changed(site: Site, recorder: Recorder, bidder: Bidder) -> None:
    client = Client(site.outside)
    reply = client.ask("PUT", "/receipts/1/1.json", bidder.token, body=b"x")
    assert reply.refuses(405, "method")
    assert not recorder.seen
