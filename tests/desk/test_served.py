"""The desk and the metrics over nginx: who reaches them, and who does not."""
import json
import pathlib
from collections.abc import Iterator

import pytest

from tests.lib import site as lib
from tests.lib.paths import EXAMPLES
from tests.lib.setups import OPERATOR
from tests.lib.site import SECOND, Site
from tests.lib.tls import Client
from tests.lib.waiting import wait_for
from tests.nginx.requests import asks_inside, get

pytestmark = [pytest.mark.needs("nginx", "openssl")]

BIDDER = "X" * 16
PAGES = ("/desk/state", "/desk/results")
ACTS = ("/desk/act", "/desk/check")


@pytest.fixture(scope="module")
def site(program: pathlib.Path) -> Iterator[Site]:
    """An auction with a desk, and no conductor."""
    setup = json.loads((EXAMPLES / "one_product.json").read_text())
    with lib.running(program, setup) as found:
        files = {"setup": "setup.json", "token": "operator.token", "journal": "auction.journal"}
        url = f"http://127.0.0.1:{found.inside}"
        settings = {"url": url, "port": found.server_port, **files}
        found.write_private("operator.token", OPERATOR)
        (found.folder / "conductor.json").write_text(json.dumps(settings))
        found.begin_auction("desk", found.folder)
        wait_for("the desk listens", (found.folder / "inner/desk.sock").exists, 60)
        yield found


def announced(site: Site) -> str:
    """All announcements."""
    file = site.folder / "public/announcements.json"
    return file.read_text() if file.exists() else ""


def request(site: Site, words: str, key: str) -> bytes:
    """The request of a click on a page of now, which announces these words."""
    page = asks_inside(site, "/desk/state", OPERATOR).json
    parts = {"act": "announce", "key": key * 32, "round": page["round"], "stamp": page["stamp"]}
    return json.dumps({**parts, "typed": "", "of": "", "given": {"words": words}}).encode()


@pytest.mark.parametrize("token", [OPERATOR, SECOND], ids=["operator", "second"])
@pytest.mark.parametrize("path", PAGES)
def test_people_of_the_desk_see_it(site: Site, path: str, token: str) -> None:
    reply = asks_inside(site, path, token)
    assert reply.status == 200 and reply.json["round"] == 1


@pytest.mark.parametrize("token", [None, BIDDER, SECOND.lower(), "UNKN0WNT0KEN0000"])
@pytest.mark.parametrize("path", PAGES + ACTS)
def test_nobody_else_does(site: Site, path: str, token: str | None) -> None:
    method = "POST" if path in ACTS else "GET"
    body = request(site, "Forged.", "0") if method == "POST" else None
    assert asks_inside(site, path, token, method=method, body=body).refuses(401, "token")
    assert "Forged." not in announced(site)


@pytest.mark.parametrize("path", [*PAGES, *ACTS, "/metrics", "/operator.html", "/desk_shown.js"])
@pytest.mark.parametrize("method", ["GET", "POST"])
def test_nothing_of_it_is_at_the_bidders_port(site: Site, path: str, method: str) -> None:
    for token in (OPERATOR, SECOND, BIDDER):
        assert get(site, path, token, method=method).status == 404


@pytest.mark.parametrize("other", ["cross-site", "same-site", "x"])
def test_another_sites_page_does_nothing(site: Site, other: str) -> None:
    """Also with the token, which that page cannot know."""
    body = request(site, "Of another site.", "1")
    for path, method in (("/desk/act", "POST"), ("/desk/state", "GET"), ("/metrics", "GET")):
        given = body if method == "POST" else None
        reply = asks_inside(site, path, OPERATOR, method=method, body=given, sec_fetch_site=other)
        assert reply.refuses(403, "cross_site")
    assert "Of another site." not in announced(site)


@pytest.mark.parametrize("host", ["evil.test", "127.0.0.2"])
def test_another_name_of_this_machine_does_nothing(site: Site, host: str) -> None:
    body = request(site, "Of another name.", "2")
    reply = asks_inside(site, "/desk/act", OPERATOR, method="POST", body=body, host=host)
    assert reply.refuses(421, "host")
    assert "Of another name." not in announced(site)


def test_a_click_is_done_once(site: Site) -> None:
    body = request(site, "Hello.", "3")
    assert asks_inside(site, "/desk/act", OPERATOR, method="POST", body=body).status == 200
    again = asks_inside(site, "/desk/act", OPERATOR, method="POST", body=body)
    assert again.refuses(409, "repeated")
    assert announced(site).count("Hello.") == 1


def test_an_act_is_no_get(site: Site) -> None:
    body = request(site, "By GET.", "4")
    assert asks_inside(site, "/desk/act", OPERATOR, method="GET", body=body).status == 404
    assert "By GET." not in announced(site)


def test_a_second_desk_is_refused(site: Site) -> None:
    assert site.begin_auction("desk", site.folder).wait(60) == 1
    assert asks_inside(site, "/desk/state", OPERATOR).status == 200


def test_a_desks_token_opens_nothing_of_the_server(site: Site) -> None:
    """Otherwise one person could close a round without the other."""
    body = b'{"increment":10,"round":1,"ties":[]}'
    assert asks_inside(site, "/v1/close", SECOND, method="POST", body=body).status == 401
    assert asks_inside(site, "/v1/results", SECOND).status == 401
    client = Client(site.outside)
    assert client.ask("GET", "/v1/me", SECOND).status == 401
    assert asks_inside(site, "/v1/status").json["round"] == 1


def test_the_metrics_are_for_this_machine_without_a_token(site: Site) -> None:
    reply = asks_inside(site, "/metrics")
    assert reply.status == 200
    assert b"clock_auction_conductor_looked_seconds" in reply.page


def test_the_metrics_have_no_name_and_no_token(site: Site) -> None:
    text = asks_inside(site, "/metrics").page.decode()
    assert BIDDER not in text and OPERATOR not in text
    assert not [line for line in text.splitlines() if '"X"' in line or '"Y"' in line]


def test_a_desk_without_a_conductor_says_so(site: Site) -> None:
    page = asks_inside(site, "/desk/state", OPERATOR).json
    assert page["is_stale"] is True
    assert [one["submitted"] for one in page["bidders"]] == [None, None]


def test_who_was_seen_is_by_the_log(site: Site) -> None:
    client = Client(site.outside)
    assert client.ask("GET", "/v1/me", BIDDER).status == 200

    def seen() -> bool:
        page = asks_inside(site, "/desk/state", OPERATOR).json
        return page["bidders"][0]["seen"] is not None

    wait_for("X was seen", seen, 60, 0.5)
