"""A new timetable changes only rounds that have not begun.

It changes nothing that begins soon for the worse.
"""
import json

import pytest

from auction.conductor import commands
from auction.conductor.report import State
from auction.conductor.timetable import TimetableFault
from tests.conductor.conftest import Conduct
from tests.conductor.finished import finish
from tests.conductor.plans import day_of, take
from tests.lib.conducted import ConductedAuction, refusal

FIRST = ((400, 700), (800, 1000), (1100, 1300), (1400, 1500))


@pytest.fixture
def unplanned(conduct: Conduct) -> ConductedAuction:
    auction = conduct([], notice=300)
    auction.play(State.UNPLANNED)
    return auction


@pytest.mark.parametrize(
    ("windows", "words"),
    [
        pytest.param([(200, 500)], "within the 300 s of notice", id="without notice"),
        pytest.param([(400, 700), (720, 900)], "20 s after round 1 closes", id="too close"),
        pytest.param([(400, 700), (740, 900)], "need 50 s between them", id="no time for results"),
        pytest.param([(400, 700), (600, 900)], "after round 1 closes", id="overlapping"),
        pytest.param([(0, 60)], "are in the past", id="in the past"),
    ],
)
def test_a_first_timetable_is_refused(
    unplanned: ConductedAuction, windows: list[tuple[int, int]], words: str
) -> None:
    assert words in take(unplanned, *windows)
    assert unplanned.context().plan_file.read().windows == {}
    assert not unplanned.announcements()


@pytest.fixture
def opened(unplanned: ConductedAuction) -> ConductedAuction:
    """An auction with the first timetable, in round 1."""
    assert take(unplanned, *FIRST) == ""
    unplanned.play(State.OPEN)
    unplanned.bid()
    return unplanned


def test_the_open_window_stays_and_past_windows_are_left_out(opened: ConductedAuction) -> None:
    assert take(opened, (0, 60), (1000, 1200), (1300, 1400)) == ""
    assert opened.window(1) == (400, 700)
    assert opened.window(2) == (1000, 1200)
    assert opened.window(3) == (1300, 1400)
    assert 4 not in opened.context().plan_file.read().windows


def test_a_window_within_the_open_one_is_refused(opened: ConductedAuction) -> None:
    assert "round 2 would open -200 s after round 1 closes" in take(opened, (500, 800))


@pytest.fixture
def announced(opened: ConductedAuction) -> ConductedAuction:
    """An auction whose round 2 begins in less than the notice."""
    assert take(opened, (1000, 1200), (1300, 1400)) == ""
    opened.play(State.CLOSED)
    opened.wait(80)
    return opened


@pytest.mark.parametrize(
    "window",
    [
        pytest.param((970, 1200), id="earlier"),
        pytest.param((1000, 1190), id="shorter"),
        pytest.param((990, 1190), id="earlier and shorter"),
    ],
)
def test_an_announced_window_does_not_become_worse(
    announced: ConductedAuction, window: tuple[int, int]
) -> None:
    assert "may be put off" in take(announced, window)


def test_an_announced_window_may_be_put_off(announced: ConductedAuction) -> None:
    assert take(announced, (1020, 1220), (1300, 1310)) == ""
    assert announced.window(2) == (1020, 1220)
    finish(announced)
    texts = [one["text"] for one in announced.announcements() if "timetable" in one["text"]]
    assert len(texts) == 3, "each change is announced"
    first = "The timetable has 2 windows from now on. Round 2 opens at 12:16:40 UTC"
    assert texts[1].startswith(first)


def test_no_timetable_is_taken_after_the_end(announced: ConductedAuction) -> None:
    finish(announced)
    fault = refusal(commands.plan, announced.context(), announced.folder / "timetable.json")
    assert "the auction ended" in fault


def check(auction: ConductedAuction, *windows: tuple[int, int]) -> None:
    """What `auction check` does with a timetable."""
    path = auction.folder / "timetable.json"
    path.write_text(json.dumps(day_of(*windows)))
    commands.check(auction.context(), path)


@pytest.mark.parametrize(
    "windows",
    [
        pytest.param([(400, 700), (740, 900)], id="no time for results"),
        pytest.param([(400, 700), (600, 900)], id="overlapping"),
    ],
)
def test_check_refuses_breaks_that_cannot_be_kept(
    unplanned: ConductedAuction, windows: list[tuple[int, int]]
) -> None:
    with pytest.raises(TimetableFault, match="need 50 s between them"):
        check(unplanned, *windows)


def test_check_takes_what_plan_takes(unplanned: ConductedAuction) -> None:
    check(unplanned, *FIRST)
    assert unplanned.lines == [
        "2026-11-28T12:06:40Z 2026-11-28T12:11:40Z",
        "2026-11-28T12:13:20Z 2026-11-28T12:16:40Z",
        "2026-11-28T12:18:20Z 2026-11-28T12:21:40Z",
        "2026-11-28T12:23:20Z 2026-11-28T12:25:00Z",
    ]


@pytest.mark.parametrize(
    ("publish", "gap"), [pytest.param(0, 50, id="no curtain"), pytest.param(30, 70, id="curtain")]
)
def test_the_shortest_breaks_are_kept(conduct: Conduct, publish: int, gap: int) -> None:
    auction = conduct([], publish=publish, notice=0)
    windows = [(60 + (60 + gap) * number, 120 + (60 + gap) * number) for number in range(3)]
    assert take(auction, *windows) == ""
    finish(auction, step=1)
    assert not auction.announced("later than announced")
    assert [auction.window(number) for number in (1, 2, 3)] == windows


def test_a_closed_round_is_stored_before_its_curtain_lifts(conduct: Conduct) -> None:
    auction = conduct([(60, 120), (200, 260), (340, 400)], publish=30)
    auction.play(State.CLOSED, step=1)
    assert (auction.folder / "kept/results-1.json").exists()
    assert auction.conductor.context.public.published() == 0
    auction.play(State.CURTAIN, step=1)
    auction.play(State.BEFORE, step=1)
    published = auction.page("public/rounds/1.json")["published"]
    assert published == "2026-11-28T12:02:30Z"
