"""Each act at the desk does what its command does, and is written down."""
import json
from typing import Any

import pytest

from auction.conductor.clock import utc
from auction.conductor.report import State
from auction.formats.notices import read_notices
from tests.desk.conftest import Begin, Visited
from tests.lib.setups import bidder, product
from tests.lib.setups import setup as set_up

TIMETABLE = {
    "zone": "UTC",
    "days": [{"date": "2026-11-28", "windows": ["13:00-13:10", "13:30-13:40"]}],
    "increments": [{"percent": 7}],
}


def test_the_page_has_active_bidders_and_no_bid(visited: Visited) -> None:
    visited.auction.put("X", 1, 2, 100)
    visited.auction.look()
    page = visited.page()
    found = [(one["name"], one["eligibility"], one["submitted"]) for one in page["bidders"]]
    assert found == [("X", 2, True), ("Y", 2, False)]
    assert set(page["bidders"][0]) == {"name", "eligibility", "submitted", "since", "seen"}


def test_a_bidder_that_is_out_is_not_on_the_page(begin: Begin) -> None:
    """Z has not bid in round 1, so it has no eligibility in round 2."""
    only = product("A", 2, 100)
    visited = begin(document=set_up([only], [bidder(name, name * 16, 2) for name in "XYZ"]))
    visited.play(State.CLOSED)
    visited.play(State.BEFORE)
    page = visited.page()
    assert page["round"] == 2
    found = [(one["name"], one["submitted"]) for one in page["bidders"]]
    assert found == [("X", False), ("Y", False)]


def test_a_pause_stops_the_auction_at_once(visited: Visited) -> None:
    assert visited.auction.is_open()
    status, page = visited.click("pause", words="A fire alarm.")
    assert (status, page["state"]) == (200, "done")
    assert not visited.auction.is_open()
    assert visited.auction.announced("The auction is paused. A fire alarm.") == 1
    assert visited.page()["paused"] == "A fire alarm."
    assert visited.outcomes() == [("operator", "done")]


def test_a_paused_auction_is_resumed(visited: Visited) -> None:
    visited.click("pause", words="A fire alarm.")
    assert visited.click("resume", minutes=10)[0] == 200
    assert visited.page()["paused"] is None
    assert visited.auction.announced("The auction continues.") == 1


def test_a_resumption_at_once_needs_two(visited: Visited) -> None:
    visited.click("pause", words="A fire alarm.")
    assert visited.click("resume", minutes=1) == (200, {"state": "waits", "until": later(visited)})
    assert visited.page()["paused"] == "A fire alarm."
    assert visited.confirm()[1]["who"] == "operator and second"
    assert visited.page()["paused"] is None


def later(visited: Visited) -> str:
    """The time until which an act of now waits."""
    return utc(visited.auction.clock.wall() + 600)


def test_an_extension_moves_the_end(visited: Visited) -> None:
    before = visited.auction.window(1)
    assert visited.click("extend", minutes=5)[0] == 200
    assert visited.auction.window(1) == (before[0], before[1] + 300)


def test_an_announcement_is_for_everyone(visited: Visited) -> None:
    words = "The help desk is at extension 105."
    assert visited.click("announce", words=words)[0] == 200
    assert visited.auction.announced(words) == 1


def test_a_new_timetable_is_taken_from_the_page(visited: Visited) -> None:
    status, page = visited.click("plan", timetable=json.dumps(TIMETABLE))
    assert status == 200, page
    windows = visited.page()["windows"]
    assert windows[1:] == [
        {"round": 2, "opens": "2026-11-28T13:00:00Z", "closes": "2026-11-28T13:10:00Z"},
        {"round": 3, "opens": "2026-11-28T13:30:00Z", "closes": "2026-11-28T13:40:00Z"},
    ]
    assert not (visited.auction.folder / "state/desk-timetable.json").exists()


def test_a_timetable_is_looked_at_first(visited: Visited) -> None:
    body = json.dumps({"timetable": json.dumps(TIMETABLE)}).encode()
    status, page = visited.desk.check(body)
    assert (status, len(page["windows"])) == (200, 2)
    assert page["windows"][0] == {
        "opens": "2026-11-28T13:00:00Z",
        "closes": "2026-11-28T13:10:00Z",
    }


@pytest.mark.parametrize("text", ["", "{", '{"days":[]}', '{"days":[{"date":"x","windows":[]}]}'])
def test_a_wrong_timetable_changes_nothing_and_names_no_file(visited: Visited, text: str) -> None:
    before = visited.page()["windows"]
    for status, page in (
        visited.click("plan", timetable=text),
        visited.desk.check(json.dumps({"timetable": text}).encode()),
    ):
        assert (status, page["code"]) == (409, "fault")
        assert str(visited.auction.folder) not in page["words"]
    assert visited.page()["windows"] == before
    assert visited.outcomes()[-1][1] not in ("done", "begun")


def test_a_round_is_closed_early_by_two(visited: Visited) -> None:
    visited.auction.bid()
    visited.auction.look()
    given: dict[str, Any] = {"increments": [20], "without_sheets": False}
    assert visited.click("close", typed="1", **given)[1]["state"] == "waits"
    assert visited.auction.window(1) == (60, 360), "nothing is done yet"
    assert visited.page("second")["waiting"]["words"] == "close round 1 early, with 20 percent"
    assert visited.confirm(typed="1")[0] == 200
    visited.play(State.CLOSED)
    assert visited.auction.page("kept/closing-1.json")["increment"] == 20
    assert visited.auction.announced("earlier than announced before") == 1
    assert visited.outcomes() == [("operator", "waits"), ("operator and second", "done")]


def test_the_notices_name_who_did_what(visited: Visited) -> None:
    visited.click("announce", words="The help desk is at extension 105.")
    visited.click("close", typed="1", increments=[20], without_sheets=True)
    visited.confirm(typed="1")
    acts = [says for kind, says in noticed(visited) if kind == "act"]
    assert acts == [
        {"what": "announce", "who": "operator"},
        {"round": 1, "what": "close", "who": "operator and second"},
    ]


def noticed(visited: Visited) -> list[tuple[str, dict[str, Any]]]:
    """The kinds of the notices, and what they say."""
    public = visited.auction.folder / "public"
    commitment = (public / "commitment.json").read_bytes()
    entries = read_notices(public / "notices.jsonl", commitment)
    return [(entry.kind, entry.says) for entry in entries]


def test_a_round_without_sheets_is_closed_only_if_both_know(visited: Visited) -> None:
    visited.click("close", typed="1", increments=[20], without_sheets=False)
    status, page = visited.confirm(typed="1")
    assert (status, page["code"]) == (409, "fault")
    assert page["words"] == "nobody has a sheet in force: confirm that you know"
    assert visited.auction.window(1) == (60, 360)
    visited.click("close", typed="1", increments=[20], without_sheets=True)
    words = visited.page("second")["waiting"]["words"]
    assert words == "close round 1 early, with 20 percent, though nobody has submitted bids"
    assert visited.confirm(typed="1")[0] == 200
    visited.play(State.CLOSED)


@pytest.mark.parametrize(
    "increments, words",
    [
        ([20, 20], "there are 2 increments"),
        ([51], "increment 1 is not a whole number, 1 to 50"),
        ([0], "increment 1 is not"),
        ([1.5], "increment 1 is not"),
        (["20"], "increment 1 is not"),
        ([10, 10, 77], "increment 3 is not"),
        ([], "increments are a list"),
    ],
    ids=str,
)
def test_a_wrong_increment_is_named(visited: Visited, increments: Any, words: str) -> None:
    visited.auction.bid()
    visited.auction.look()
    status, page = visited.click("close", typed="1", increments=increments, without_sheets=False)
    if status == 200:
        status, page = visited.confirm(typed="1")
    assert status in (409, 422)
    assert words in page["words"]
    assert visited.auction.window(1) == (60, 360)


def test_a_held_round_is_closed_by_the_word_of_two(begin: Begin) -> None:
    visited = begin()
    visited.auction.play(State.HELD, bidders="")
    page = visited.page()
    assert page["acts"]["next"] == {"people": 2, "why": None}
    visited.click("next", typed="1", without_sheets=True, no_ties=False)
    assert visited.confirm(typed="1")[0] == 200
    visited.play(State.CLOSED)


def test_a_word_that_names_no_doubt_closes_nothing(begin: Begin) -> None:
    visited = begin()
    visited.auction.play(State.HELD, bidders="")
    visited.click("next", typed="1", without_sheets=False, no_ties=False)
    status, page = visited.confirm(typed="1")
    assert (status, page["code"]) == (409, "fault")
    assert "--without-sheets" in page["words"]


def test_winners_are_published_by_two(begin: Begin) -> None:
    visited = begin()
    visited.play(State.ENDED)
    assert visited.page()["acts"]["winners"]["why"] is None
    assert visited.click("winners")[1]["state"] == "waits"
    winners = visited.auction.folder / "public/winners.json"
    assert not winners.exists()
    assert visited.confirm()[0] == 200
    assert winners.exists()
    assert visited.click("winners")[1]["code"] == "published"


def test_the_page_has_what_was_done_by_whom_and_when(visited: Visited) -> None:
    visited.click("announce", words="Hello.")
    visited.click("extend", who="second", minutes=5)
    done = visited.page()["done"]
    assert [(one["who"], one["words"], one["outcome"]) for one in done] == [
        ("operator", "announce: Hello.", "done"),
        ("second", "give round 1 5 minutes more", "done"),
    ]
    assert all(one["time"].startswith("2026-11-28T12:") for one in done)


def test_nothing_is_possible_after_the_end_but_words_and_winners(begin: Begin) -> None:
    visited = begin()
    visited.play(State.ENDED)
    acts = visited.page()["acts"]
    assert {act for act, about in acts.items() if about["why"] is None} == {"announce", "winners"}
