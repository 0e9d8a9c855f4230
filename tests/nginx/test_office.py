"""An office of fifty tabs at one address, each with its token."""
import json
import time
from collections import Counter
from concurrent.futures import ThreadPoolExecutor

import pytest

from tests.lib.paths import TOP
from tests.lib.site import Site
from tests.lib.tls import ADDRESSES, connected
from tests.nginx.recorder import Recorder
from tests.nginx.requests import head, replies_in, replies_of
from tests.nginx.running import BIDDERS

TABS, AT_ONCE, A_SECOND, OTHERS = 50, 6_000, 400, 200
DESKS = ("operator", "desk")  # files that are not for bidders
NAMES = [file.name for file in (TOP / "web").iterdir()]
FILES = [f"/{name}" for name in NAMES if not name.startswith(DESKS)]
TIMES = ["/public/timetable.json", "/public/announcements.json"]


@pytest.fixture
def office(site: Site) -> Site:
    """nginx with a timetable and announcements."""
    (site.folder / "public").mkdir(exist_ok=True)
    for path in TIMES:
        (site.folder / path[1:]).write_text(json.dumps({"path": path}))
    return site


def at_once(site: Site, texts: list[bytes], connections: int) -> Counter[int]:
    """The statuses of requests that come over this number of connections of one address."""
    address = next(ADDRESSES)
    parts = [texts[place::connections] for place in range(connections)]
    with ThreadPoolExecutor(10) as pool:
        peers = [connected(site.outside, address) for _ in parts]
        found = pool.map(
            lambda both: [status for status, _ in replies_in(*both)], zip(peers, parts)
        )
        return Counter(status for statuses in found for status in statuses)


def test_fifty_tabs_that_are_reloaded_at_once_get_all_files_and_times(office: Site) -> None:
    """All files twice, and then the times for as often as all of that is allowed at once."""
    each = [*FILES, *TIMES] * 2
    each += TIMES * ((AT_ONCE // TABS - len(each)) // 2)
    assert len(FILES) > 20 and TABS * len(each) <= AT_ONCE, "the pages have too many files"
    found = at_once(office, [head("GET", path) for path in each] * TABS, 2 * TABS)
    assert found == {200: TABS * len(each)}


def test_tabs_ask_with_their_tokens_though_their_address_asks_for_many_files(
    office: Site, recorder: Recorder
) -> None:
    address = next(ADDRESSES)
    texts = [head("GET", TIMES[0])] * 900
    assert replies_of(connected(office.outside, address), texts)[0] == {200: 900}
    bidder = BIDDERS[0]
    status = head("GET", "/v1/status", bidder.token)
    assert replies_of(connected(office.outside, address), [status])[0] == {200: 1}


@pytest.mark.parametrize("path", ["/", TIMES[0]])
def test_an_address_gets_429_above_6000_small_files_at_once(office: Site, path: str) -> None:
    """By the time that all requests took, which is at least that between the first and the last."""
    many = 9_000
    texts = [head("GET", path)] * many
    found, seconds = timed(office, texts)
    assert set(found) <= {200, 429}
    assert AT_ONCE < found[200] <= AT_ONCE + 2 + A_SECOND * seconds


def timed(site: Site, texts: list[bytes]) -> tuple[Counter[int], float]:
    """The statuses over ten connections, and the seconds that they took."""
    begun = time.monotonic()
    return at_once(site, texts, 10), time.monotonic() - begun


def test_long_published_files_have_a_limit_of_their_own(office: Site) -> None:
    address = next(ADDRESSES)
    (office.folder / "public/winners.json").write_text("{}")
    texts = [head("GET", "/public/winners.json")] * 2 * OTHERS
    found, seconds = replies_of(connected(office.outside, address), texts)
    assert OTHERS < found[200] <= OTHERS + 2 + 100 * seconds
    assert replies_of(connected(office.outside, address), [head("GET", "/")])[0] == {200: 1}
