"""What nginx answers from its cache, for how long, and what it never stores."""
import json
import time
from collections import Counter
from collections.abc import Callable
from concurrent.futures import ThreadPoolExecutor

import pytest

from tests.lib.site import Site
from tests.lib.tls import Client
from tests.nginx.recorder import PRIVATE, Recorder
from tests.nginx.requests import OPERATOR, Bidder, asks_inside, get
from tests.nginx.running import empty_cache

NewBidder = Callable[[], Bidder]


# ---- The status


def age_of(client: Client) -> float:
    """How old the status was when it was asked for. A busy machine does not make it older."""
    asked = time.time()
    reply = client.ask("GET", "/v1/status")
    assert reply.status == 200
    return asked - reply.json["at"]


def ages_of(site: Site, count: int) -> list[float]:
    """The ages of the status for this number of requests of a client, four a second."""
    client, ages = Client(site.outside), []
    for _ in range(count):
        ages.append(age_of(client))
        time.sleep(0.25)
    return ages


def test_the_server_is_asked_for_its_status_once_a_second(site: Site, recorder: Recorder) -> None:
    begun = time.monotonic()
    with ThreadPoolExecutor(40) as pool:
        ages = [age for found in pool.map(lambda _: ages_of(site, 12), range(40)) for age in found]
    assert len(ages) == 480
    assert recorder.count("GET /v1/status") <= time.monotonic() - begun + 2
    assert max(ages) < 1.1


def test_the_status_is_of_its_second_though_the_server_is_slow(
    site: Site, recorder: Recorder
) -> None:
    get(site, "/v1/status")
    time.sleep(3)  # nobody asks
    recorder.delay = 0.7  # as while a round closes
    with ThreadPoolExecutor(10) as pool:
        ages = list(pool.map(lambda _: age_of(Client(site.outside)), range(10)))
    assert max(ages) < 1.1


# ---- Products and closed rounds


@pytest.mark.parametrize("page, asked", [("products", 1), ("rounds/1", 1), ("rounds/3", 8)])
def test_products_and_closed_rounds_are_asked_for_once(
    site: Site, recorder: Recorder, new_bidder: NewBidder, page: str, asked: int
) -> None:
    """Round 3 is not closed, so the server is asked for it each time."""
    for bidder in (new_bidder(), new_bidder()):
        client = Client(site.outside)
        for _ in range(4):
            status = 404 if page == "rounds/3" else 200
            assert client.ask("GET", f"/v1/{page}", bidder.token, "cookie: a=b").status == status
    assert recorder.count(f"GET /v1/{page}") == asked


def test_head_of_the_products_is_from_the_same_page(site: Site, recorder: Recorder) -> None:
    client = Client(site.outside)
    for method in ("GET", "HEAD", "HEAD"):
        assert client.ask(method, "/v1/products").status == 200
    assert recorder.lines() == ["GET /v1/products"]


def test_a_round_is_asked_for_once_more_when_it_has_closed(
    site: Site, recorder: Recorder, bidder: Bidder
) -> None:
    assert get(site, "/v1/rounds/3", bidder.token).status == 404
    recorder.closed = 3
    assert [get(site, "/v1/rounds/3", bidder.token).status for _ in range(3)] == [200] * 3
    assert recorder.count("GET /v1/rounds/3") == 2


def test_a_round_is_asked_for_once_more_after_the_cache_is_emptied(
    site: Site, recorder: Recorder, bidder: Bidder
) -> None:
    assert get(site, "/v1/rounds/1", bidder.token).status == 200
    empty_cache(site)
    assert [get(site, "/v1/rounds/1", bidder.token).status for _ in range(2)] == [200, 200]
    assert recorder.count("GET /v1/rounds/1") == 2


@pytest.mark.parametrize("page", ["status", "products", "rounds/1", "rounds/3"])
def test_a_page_for_everyone_is_asked_for_without_a_token(
    site: Site, recorder: Recorder, bidder: Bidder, page: str
) -> None:
    get(site, f"/v1/{page}", bidder.token)
    (request,) = recorder.seen
    assert "authorization" not in request.names


@pytest.fixture
def askers(site: Site, new_bidder: NewBidder) -> Callable[[int], Counter[int]]:
    """Asks 20 times at once for a round, as two bidders, and returns the statuses."""
    bidders = (new_bidder(), new_bidder())
    clients = [(Client(site.outside), bidders[number % 2]) for number in range(20)]

    def ask(number: int) -> Counter[int]:
        path = f"/v1/rounds/{number}"
        with ThreadPoolExecutor(20) as pool:
            asks = [
                pool.submit(client.ask, "GET", path, bidder.token) for client, bidder in clients
            ]
            return Counter(reply.result().status for reply in asks)

    return ask


def test_of_20_at_once_one_reaches_the_server(
    recorder: Recorder, askers: Callable[[int], Counter[int]]
) -> None:
    """It has three tries, since on a busy machine an answer may take longer than others wait."""
    recorder.delay, recorder.closed = 0.02, 5
    for number in (2, 4, 5):
        assert askers(number) == {200: 20}
        if (count := recorder.count(f"GET /v1/rounds/{number}")) == 1:
            break
    assert count < 20


def test_of_20_at_once_none_waits_for_a_round_that_is_not_closed(
    recorder: Recorder, askers: Callable[[int], Counter[int]]
) -> None:
    recorder.delay = 0.02
    begun = time.monotonic()
    assert askers(6) == {404: 20}
    assert time.monotonic() - begun < 4


# ---- Pages of a bidder and of the operator


@pytest.mark.parametrize("path", ["/v1/me", "/v1/me/bids", "/v1/me/rounds/1"])
def test_a_bidders_page_is_asked_for_each_time_and_is_its_own(
    site: Site, recorder: Recorder, new_bidder: NewBidder, path: str
) -> None:
    clients = [(Client(site.outside), new_bidder().token) for _ in range(2)]
    for _ in range(3):
        for client, token in clients:
            reply = client.ask("GET", path, token)
            assert reply.status == 200
            assert reply.json["private"] == PRIVATE + token
            assert "\ncache-control: no-store" in reply.head
    assert recorder.lines() == [f"GET {path}"] * 6


@pytest.mark.parametrize("line", ["GET /v1/results", "POST /v1/close"])
def test_an_operators_page_is_asked_for_each_time(
    site: Site, recorder: Recorder, line: str
) -> None:
    method, path = line.split()
    pages = [
        asks_inside(site, path, OPERATOR, method=method, body=b"" if method == "POST" else None)
        for _ in range(3)
    ]
    assert [page.json["number"] for page in pages] == [1, 2, 3]
    assert [page.json["private"] for page in pages] == [PRIVATE + OPERATOR] * 3


def test_no_page_of_a_bidder_or_of_the_operator_is_in_a_file(
    site: Site, recorder: Recorder, bidder: Bidder
) -> None:
    for path in ("/v1/me", "/v1/me/bids", "/v1/me/rounds/1", "/v1/products", "/v1/rounds/1"):
        assert get(site, path, bidder.token).status == 200
    assert asks_inside(site, "/v1/results", OPERATOR).status == 200
    files = [file for file in (site.folder / "tmp").rglob("*") if file.is_file()]
    assert len(files) >= 2, "products and a round are stored"
    assert not any(PRIVATE.encode() in file.read_bytes() for file in files)


def test_the_status_may_not_be_stored_by_a_client(site: Site, recorder: Recorder) -> None:
    reply = get(site, "/v1/status")
    assert "\ncache-control: no-store" in reply.head
    assert json.loads(reply.page)["path"] == "/v1/status"
