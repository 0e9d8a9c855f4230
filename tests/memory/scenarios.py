"""Scenarios of calls of the crates. The program in calls/ plays them, and watches the last."""
from typing import NamedTuple

from tests.memory.requests import GRANULES, HIGHEST, ONE, ONE_AT_HIGHEST, OPENING, REPLAY
from tests.memory.requests import SHORT_PUT, TWO, close, closing, put, request, sheet

# Two rounds of a set-up with granules: in the second a bidder's freed eligibility lets a waiting
# request through.
INCREMENTS = [10, 20]
FIRST_ROUND = [
    f"0 {sheet(1, (1, 2, 100))}",
    f"1 {sheet(1, (0, 2, 100))}",
    f"2 {sheet(1, (1, 1, 100))}",
    f"close {closing(1, increments=INCREMENTS)}",
]
LAST_SHEET = f"0 {sheet(2, (0, 1, 104), (1, 1, 106))}"
SECOND_ROUND = [
    *FIRST_ROUND,
    LAST_SHEET,
    f"1 {sheet(2, (0, 1, 102))}",
    f"2 {sheet(2, (1, 1, 120))}",
]
LAST_CLOSING = f"close {closing(2, [[0, 0, 9], [1, 0, 3], [2, 1, 4]], increments=INCREMENTS)}"

PLAYED = [SHORT_PUT, put("Y", 1, (0, 1, 100)), close(1)]
BIDDING = [*PLAYED, put("Y", 2, (0, 0, 102)), put("X", 2, (0, 0, 103))]
AT_HIGHEST = [put("X", 1, (0, 2, HIGHEST)), put("Y", 1, (0, 1, HIGHEST))]


class Scenario(NamedTuple):
    """A scenario: its name, its kind, and the processor if its kind has one, a document, and steps.

    `reads` is whether it only reads a page, and so must allocate once.
    """

    name: str
    parts: list[str]
    reads: bool = False


def in_single_bytes(*texts: str) -> list[str]:
    """The events of connections that receive their texts byte by byte, in turn."""
    events = ["connect"] * len(texts)
    for place in range(max(map(len, texts))):
        whole = [(number, text) for number, text in enumerate(texts) if place < len(text)]
        events += [f"piece {number} {text[place]}" for number, text in whole]
    return events


# Three connections, of which one is cut short, and a fourth that asks for the sheet that the first
# submitted.
CONNECTIONS = [
    *in_single_bytes(SHORT_PUT, request("GET /v1/status")),
    "connect",
    "piece 2 PUT /v1/me",
    "finish 2",
    "connect",
    f"piece 3 {request('GET /v1/me/bids', 'X')}",
]

# Each of them is played with both processors.
OF_PROCESSORS: list[tuple[str, str, list[str]]] = [
    ("House::new", "house", [TWO]),
    ("put_sheet", "house", [GRANULES, *FIRST_ROUND, LAST_SHEET]),
    ("put_sheet in place of another", "house", [GRANULES, *SECOND_ROUND, LAST_SHEET]),
    ("close", "house", [GRANULES, *SECOND_ROUND, LAST_CLOSING]),
    ("Front::new", "front", [ONE]),
    ("answer, the PUT of 147 bytes", "front", [ONE, SHORT_PUT]),
    (
        "answer, a closing refused for the price limit",
        "front",
        [ONE_AT_HIGHEST, *AT_HIGHEST, close(1, increment=1)],
    ),
    (
        "answer, a sheet in place of another next to a rival's",
        "front",
        [ONE, *BIDDING, put("X", 2, (0, 0, 104))],
    ),
    (
        "answer, a closing",
        "front",
        [ONE, *PLAYED, put("X", 2, (0, 0, 103)), close(2, [[0, 0, 1]])],
    ),
    ("run_events, three connections and the bids put", "events", [ONE, *CONNECTIONS]),
    ("the calls of a hub, three connections and the bids put", "hub", [ONE, *CONNECTIONS]),
]

# Requests that only read a page, although their sender and a rival have sheets in force.
PAGES = ["status", "products", "rounds/1", "rounds/9", "none"]
PAGES_OF_X = ["me", "me/bids", "me/rounds/1", "me/rounds/2", "results"]
READING = {
    **{f"/v1/{page}": request(f"GET /v1/{page}") for page in PAGES},
    **{f"/v1/{page} of X": request(f"GET /v1/{page}", "X") for page in PAGES_OF_X},
    "/v1/results": request("GET /v1/results", "O"),
    "another method": request("POST /v1/me", "X"),
    "a bidder's closing": request("POST /v1/close", "X"),
    "a sheet without a token": request("PUT /v1/me/bids"),
    "a request that is cut short": "GET /v1/me HTTP/1.1",
}

SCENARIOS = [
    Scenario("read_setup, version 1", ["setup", ONE]),
    Scenario("read_setup, version 2", ["setup", GRANULES]),
    Scenario("read_opening", ["opening", OPENING]),
    Scenario("read_replay", ["replay", REPLAY]),
    Scenario("simulate and report_text", ["simulate", REPLAY]),
    Scenario("play_replay", ["play_replay", REPLAY]),
    *[
        Scenario(f"{name}, {processor}", [kind, processor, *parts])
        for processor in ("plain", "woken")
        for name, kind, parts in OF_PROCESSORS
    ],
    *[
        Scenario(f"reading, {name}", ["front", "woken", ONE, *BIDDING, text], reads=True)
        for name, text in READING.items()
    ],
]
