"""What nginx compresses, and what a browser may store of it."""
import json

import pytest

from auction.pages import copy_pages, version_of
from tests.lib.paths import TOP
from tests.lib.site import Site
from tests.lib.tls import Reply
from tests.nginx.recorder import Recorder
from tests.nginx.requests import Bidder, asks_inside, get

LARGE = 20_000
ZIPPED = "\ncontent-encoding: gzip"
FOR_GOOD = "\ncache-control: max-age=31536000, immutable"


def unzipped(site: Site, path: str, token: str | None = None) -> Reply:
    return get(site, path, token, "accept-encoding: gzip")


@pytest.fixture
def large(site: Site, recorder: Recorder) -> Site:
    """A site whose pages are large."""
    recorder.size = LARGE
    (site.folder / "public/rounds").mkdir(parents=True, exist_ok=True)
    for name in ("rounds/1", "winners"):
        (site.folder / f"public/{name}.json").write_text(json.dumps({"more": "x" * LARGE}))
    return site


@pytest.fixture
def version(site: Site) -> str:
    """The folder of the pages' scripts and styles, as `auction init` makes it."""
    name = version_of(TOP / "web")
    if not (site.folder / "web" / name).exists():
        copy_pages(TOP / "web", site.folder / "copied")
        (site.folder / "copied" / name).rename(site.folder / "web" / name)
    return name


@pytest.mark.parametrize("path", ["/v1/products", "/public/rounds/1.json", "/public/winners.json"])
def test_what_everyone_may_see_is_compressed(large: Site, path: str) -> None:
    assert ZIPPED in unzipped(large, path).head
    assert ZIPPED not in get(large, path).head, "only for a client that reads it"


def test_a_closed_round_is_compressed(large: Site, bidder: Bidder) -> None:
    assert ZIPPED in unzipped(large, "/v1/rounds/1", bidder.token).head


@pytest.mark.parametrize("name", ["", "bidder.js", "bidder.css", "results.html"])
def test_a_file_of_the_pages_is_compressed(large: Site, name: str) -> None:
    assert ZIPPED in unzipped(large, "/" + name).head


@pytest.mark.parametrize("path", ["/v1/me", "/v1/me/bids", "/v1/me/rounds/1"])
def test_no_page_of_a_bidder_is_compressed(large: Site, bidder: Bidder, path: str) -> None:
    """An attacker who chose a part of it could learn the rest from its length."""
    reply = unzipped(large, path, bidder.token)
    assert reply.status == 200 and ZIPPED not in reply.head


@pytest.mark.parametrize("name", ["", "index.html", "bidder.js", "style.css", "results.html"])
def test_a_file_of_the_pages_comes_only_if_it_has_changed(site: Site, name: str) -> None:
    head = get(site, "/" + name).head
    assert "\ncache-control: no-cache" in head
    tag = head.partition("\netag: ")[2].split("\r")[0]
    assert get(site, "/" + name, None, f"if-none-match: {tag}").status == 304


def test_a_file_of_a_version_is_stored_for_good(site: Site, version: str) -> None:
    reply = get(site, f"/{version}/bidder.js")
    assert reply.status == 200 and FOR_GOOD in reply.head
    assert reply.page == (TOP / "web/bidder.js").read_bytes()
    assert FOR_GOOD in asks_inside(site, f"/{version}/operator.js", None).head


@pytest.mark.parametrize(
    "path", ["/v000000000000/bidder.js", "/{version}/none.js", "/{version}/index.html"]
)
def test_what_is_not_there_is_not_stored(site: Site, version: str, path: str) -> None:
    reply = get(site, path.format(version=version))
    assert reply.refuses(404, "no_page") and "\ncache-control: no-store" in reply.head


@pytest.mark.parametrize(
    "path",
    ["/public/x.json", "/v1/status", "/../setup.json", "/%2e%2e/setup.json", "/x/../openapi.json"],
)
def test_nothing_else_is_stored_for_good_below_a_version(
    site: Site, recorder: Recorder, version: str, path: str
) -> None:
    assert FOR_GOOD not in get(site, f"/{version}{path}").head


def test_the_operators_files_of_a_version_are_not_there_for_bidders(
    site: Site, version: str
) -> None:
    names = [file.name for file in (TOP / "web").glob("operator*.js")]
    assert names
    for name in names:
        assert get(site, f"/{version}/{name}").refuses(404, "no_page")
