"""Requests that must change nothing: stale, repeated, forged, torn, or of two desks at once."""
import json
import threading
from typing import Any

import pytest

from auction.conductor import commands
from auction.conductor.report import State
from auction.desk.people import People
from tests.desk.conftest import Begin, Visited
from tests.lib.disk import Killed
from tests.lib.site import SECOND

HELLO = {"words": "Hello."}


def code(answer: tuple[int, dict[str, Any]]) -> tuple[int, str]:
    return answer[0], answer[1].get("code", "done")


def changes(visited: Visited) -> list[str]:
    """All that everyone was shown."""
    return [one["text"] for one in visited.auction.announcements()]


@pytest.fixture
def closing(visited: Visited) -> dict[str, Any]:
    """A request to close round 1, on a page of now, with bids of both."""
    visited.auction.bid()
    visited.auction.look()
    given: dict[str, Any] = {"increments": [20], "without_sheets": False}
    return visited.request("close", visited.page(), typed="1", **given)


# ---- A click on a stale page


@pytest.mark.parametrize(
    "act, given",
    [
        ("extend", {"minutes": 5}),
        ("announce", HELLO),
        ("plan", {"timetable": "{}"}),
        ("close", {"increments": [20], "without_sheets": True}),
        ("next", {"no_ties": False, "without_sheets": True}),
    ],
)
@pytest.mark.parametrize("change", ["announce", "extend", "a command"])
def test_a_page_from_before_a_change_does_nothing(
    visited: Visited, act: str, given: dict[str, Any], change: str
) -> None:
    shown = visited.page()
    if change == "announce":
        visited.click("announce", who="second", words="First.")
    elif change == "extend":
        visited.click("extend", who="second", minutes=1)
    else:
        visited.auction.obey(commands.extend, 1)
    before = changes(visited)
    assert code(visited.send(visited.request(act, shown, typed="1", **given))) == (409, "stale")
    assert changes(visited) == before


def test_a_page_of_the_round_before_pauses_nothing(begin: Begin) -> None:
    visited = begin()
    visited.play(State.OPEN)
    old = visited.page()
    visited.play(State.CLOSED)
    visited.play(State.BEFORE)
    before = changes(visited)
    assert code(visited.send(visited.request("pause", old, words="Late."))) == (409, "stale")
    assert changes(visited) == before


def test_a_pause_is_urgent_so_it_passes_though_something_changed(visited: Visited) -> None:
    shown = visited.page()
    visited.click("announce", who="second", words="First.")
    assert visited.send(visited.request("pause", shown, words="Fire."))[0] == 200


def test_what_the_conductor_notes_by_itself_makes_no_page_stale(begin: Begin) -> None:
    visited = begin()
    visited.play(State.BEFORE)
    shown = visited.page()
    visited.play(State.OPEN)
    assert visited.send(visited.request("announce", shown, **HELLO))[0] == 200


def test_a_change_between_the_look_and_the_lock_is_noticed(
    visited: Visited, monkeypatch: pytest.MonkeyPatch
) -> None:
    """A command of the shell comes between what the desk sees and the lock of the plan."""
    shown = visited.page()
    before = visited.auction.window(1)
    guard_of = visited.desk.guard_of

    def late(*given: Any) -> Any:
        visited.auction.obey(commands.extend, 1)
        return guard_of(*given)

    monkeypatch.setattr(visited.desk, "guard_of", late)
    answer = visited.send(visited.request("extend", shown, minutes=60))
    assert code(answer) == (409, "stale")
    assert visited.auction.window(1) == (before[0], before[1] + 60)


def test_a_round_that_closes_while_a_second_person_is_asked_stays_as_it_is(
    visited: Visited, closing: dict[str, Any]
) -> None:
    assert visited.send(closing)[1]["state"] == "waits"
    visited.play(State.CLOSED)
    visited.play(State.OPEN)
    visited.auction.bid()
    visited.auction.look()
    assert visited.page("second")["waiting"] is None
    shown = visited.page("second")
    word = visited.request("confirm", shown, of=closing["key"], typed="1")
    assert code(visited.send(word, "second")) == (409, "stale")
    assert visited.auction.window(2) == (420, 720)


# ---- A repeated request


@pytest.mark.parametrize("act, given", [("announce", HELLO), ("pause", {"words": "Fire."})])
def test_a_repeated_request_does_nothing(visited: Visited, act: str, given: Any) -> None:
    request = visited.request(act, visited.page(), **given)
    assert visited.send(request)[0] == 200
    if act == "pause":
        visited.click("resume", minutes=5)
    before = changes(visited)
    assert code(visited.send(request)) == (409, "repeated")
    assert code(visited.send(request, "second")) == (409, "repeated"), "also by somebody else"
    visited.desk = visited.fresh()
    assert code(visited.send(request)) == (409, "repeated"), "also at a desk that began again"
    assert changes(visited) == before


def test_a_refused_request_is_not_done_later(visited: Visited) -> None:
    """Its key is used, though it changed nothing."""
    request = visited.request("plan", visited.page(), timetable="{}")
    assert code(visited.send(request)) == (409, "fault")
    assert code(visited.send(request)) == (409, "repeated")


def test_a_withdrawn_act_is_not_confirmed(visited: Visited, closing: dict[str, Any]) -> None:
    visited.send(closing)
    shown = visited.page("second")
    word = visited.request("confirm", shown, of=closing["key"], typed="1")
    assert visited.click("withdraw", of=closing["key"])[0] == 200
    assert code(visited.send(word, "second")) == (409, "nothing_waits")
    assert code(visited.send(closing)) == (409, "repeated")
    assert visited.auction.window(1) == (60, 360)


# ---- Two people, and one who says to be two


def test_one_person_is_not_two(visited: Visited, closing: dict[str, Any]) -> None:
    visited.send(closing)
    assert code(visited.confirm("operator", typed="1")) == (409, "same_person")
    assert visited.auction.window(1) == (60, 360)


def test_a_word_for_one_act_is_none_for_another(visited: Visited, closing: dict[str, Any]) -> None:
    """The operator shows one act, and replaces it by another while the second person reads."""
    visited.send(closing)
    shown = visited.page("second")
    visited.click("withdraw", of=closing["key"])
    given: dict[str, Any] = {"increments": [50], "without_sheets": True}
    visited.click("close", typed="1", **given)
    word = visited.request("confirm", shown, of=shown["waiting"]["key"], typed="1")
    assert code(visited.send(word, "second")) == (409, "nothing_waits")


def test_an_act_waits_ten_minutes(begin: Begin) -> None:
    visited = begin([(60, 6000)])
    visited.play(State.OPEN)
    visited.auction.bid()
    visited.auction.look()
    given: dict[str, Any] = {"increments": [20], "without_sheets": False}
    request = visited.request("close", visited.page(), typed="1", **given)
    visited.send(request)
    visited.auction.wait(610)
    word = visited.request("confirm", visited.page("second"), of=request["key"], typed="1")
    assert code(visited.send(word, "second")) == (409, "too_late")
    assert visited.auction.window(1) == (60, 6000)


def test_without_a_second_person_nothing_waits(visited: Visited) -> None:
    (visited.auction.folder / "desk.map").unlink()
    visited.desk = visited.fresh()
    given: dict[str, Any] = {"increments": [20], "without_sheets": True}
    assert code(visited.click("close", typed="1", **given)) == (409, "one_person")


@pytest.mark.parametrize("typed", ["", "2", " 1", "01", "1 without sheets"])
def test_what_is_not_typed_is_not_done(visited: Visited, typed: str) -> None:
    given: dict[str, Any] = {"increments": [20], "without_sheets": True}
    assert code(visited.click("close", typed=typed, **given)) == (409, "typed")


# ---- Forged requests, and other texts

TEXTS = {
    "no JSON": "{",
    "a list": "[]",
    "many brackets": "[" * 100_000,
    "a key twice": '{"act":"announce","act":"pause"}',
    "not a number": '{"round":NaN}',
}
PARTS: dict[str, dict[str, Any]] = {
    "another act": {"act": "clear"},
    "a key of other letters": {"key": "../../../../../../../../etc/x"},
    "a short key": {"key": "a"},
    "a round in words": {"round": "1"},
    "a round that is true": {"round": True},
    "a part too many": {"who": "second"},
    "no stamp": {"stamp": None},
    "two lines": {"given": {"words": "One.\nTwo."}},
    "a terminal's command": {"given": {"words": "\x1b[2J"}},
    "no words": {"given": {"words": "  "}},
    "too many words": {"given": {"words": "x" * 1001}},
    "words and minutes": {"given": {"words": "Hello.", "minutes": 1}},
    "given nothing": {"given": {}},
}


@pytest.mark.parametrize("text", TEXTS.values(), ids=TEXTS)
def test_what_is_no_request_is_refused(visited: Visited, text: str) -> None:
    assert code(visited.desk.act("operator", text.encode())) == (422, "shape")


@pytest.mark.parametrize("parts", PARTS.values(), ids=PARTS)
def test_a_request_of_another_form_is_refused(visited: Visited, parts: dict[str, Any]) -> None:
    before = changes(visited)
    request = {**visited.request("announce", visited.page(), **HELLO), **parts}
    assert code(visited.send(request)) == (422, "shape")
    assert changes(visited) == before


@pytest.mark.parametrize("minutes", ["5", True, None, [5]], ids=str)
def test_minutes_that_are_no_number_are_refused(visited: Visited, minutes: Any) -> None:
    assert code(visited.click("extend", minutes=minutes)) == (422, "shape")


@pytest.mark.parametrize("minutes", [-1, 0, 1441, 1e300])
def test_minutes_out_of_range_change_nothing(visited: Visited, minutes: float) -> None:
    before = visited.auction.window(1)
    assert code(visited.click("extend", minutes=minutes)) == (409, "fault")
    assert visited.auction.window(1) == before


# ---- Two desks at once, and a kill


def test_of_two_clicks_at_the_same_moment_one_is_done(visited: Visited) -> None:
    shown = visited.page()
    requests = [visited.request("extend", shown, minutes=5) for _ in range(8)]
    answers: list[tuple[int, str]] = []
    start = threading.Barrier(len(requests))

    def click(request: dict[str, Any]) -> None:
        start.wait(60)
        answers.append(code(visited.send(request)))

    threads = [threading.Thread(target=click, args=(request,)) for request in requests]
    for thread in threads:
        thread.start()
    for thread in threads:
        thread.join(60)
    assert sorted(answers) == [(200, "done"), *[(409, "stale")] * 7]
    assert visited.auction.window(1) == (60, 660)


def test_an_act_that_was_killed_is_not_done_twice(visited: Visited) -> None:
    """Before each of its steps: afterwards it was done once or not at all, and its key is used."""
    step, was_killed = 0, True
    while was_killed:
        step += 1
        request = visited.request("announce", visited.page(), words=f"Step {step}.")
        was_killed = killed(visited, request, step)
        visited.desk = visited.fresh()
        visited.auction.look()
        assert code(visited.send(request)) == (409, "repeated")
        assert visited.auction.announced(f"Step {step}.") <= 1
    assert step > 3


def killed(visited: Visited, request: dict[str, Any], step: int) -> bool:
    """Sends a request, and kills the desk before a step of its command."""
    disk = visited.auction.disk
    disk.count, disk.kill_at = 0, step
    try:
        with disk.in_use():
            visited.send(request)
    except Killed:
        return True
    finally:
        disk.kill_at = 0
    return False


def test_a_log_that_was_cut_hides_no_later_line(visited: Visited) -> None:
    visited.click("announce", words="One.")
    path = visited.auction.folder / "state/acts.jsonl"
    path.write_bytes(path.read_bytes()[:-5])
    visited.click("announce", words="Two.")
    assert [words for words in (one["words"] for one in visited.page()["done"])][-1] == (
        "announce: Two."
    )


# ---- Whose a token is


@pytest.mark.parametrize(
    "header",
    ["", "Bearer ", f"bearer {SECOND}", f"Bearer  {SECOND}", SECOND, f"Bearer {SECOND.lower()}"],
)
def test_a_header_that_is_nobodys(visited: Visited, header: str) -> None:
    assert visited.desk.people.of(header) is None


def test_each_token_is_its_persons(visited: Visited) -> None:
    assert visited.desk.people.of(f"Bearer {SECOND}") == "second"


@pytest.mark.parametrize(
    "line",
    [
        '"Bearer 0123456789abcdef" operator;',
        '"Bearer OPERATOROPERATOR" friend;',
        f'"Bearer {SECOND}" friend;',
        '"Bearer 0123456789abcdef" second;',
        '"Bearer short" friend;',
        '"Bearer 0123456789abcdef" Two Words;',
    ],
)
def test_people_with_one_name_or_one_token_are_refused(visited: Visited, line: str) -> None:
    path = visited.auction.folder / "desk.map"
    path.write_text(f'"Bearer {SECOND}" second;\n{line}\n')
    with pytest.raises(ValueError, match="line 2"):
        People.read("OPERATOROPERATOR", path)


def test_a_page_is_json_that_a_browser_reads(visited: Visited) -> None:
    assert json.loads(json.dumps(visited.page()))["who"] == "operator"
