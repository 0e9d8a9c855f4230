"""The table of forgeries around what was announced once bids may be known: rules, draws, windows,
and timetables.
"""
import json
import pathlib
from collections.abc import Callable
from typing import Any

import pytest

from auction.formats import notices
from auction.formats.receipts import Refusal, digest_of
from auction.formats.signatures import sign
from auction.verify.findings import FAILED, findings
from tests.forgeries.changes import (
    NOTHING,
    Row,
    TEXTS,
    TRUE,
    after,
    both,
    drawn,
    made_record,
    without,
)
from tests.forgeries.test_announced import (
    DRAWN,
    both_ways,
    end_of_timetable,
    place_in,
    resaid,
    says,
    unsaid,
)
from tests.forgeries.written import (
    BIDDERS,
    Evidence,
    Forge,
    SHEETS,
    Said,
    chain_of,
    said_of,
    sheet,
    texts_of,
    time_of,
    windows,
)

pytestmark = pytest.mark.early
LAST_AT_50 = TEXTS[:-1] + [TRUE.closing(3, 50)]
RULE_OF_50 = {"rules": [{"percent": 50}]}
CLOSE_1 = {"what": "close", "who": "Ann", "round": 1}
NEXT_3 = {"what": "next", "who": "Ann", "round": 3}


def added(
    before: str, number: int, kind: str, what: dict[str, Any], time: str
) -> Callable[[Said], Said]:
    """One notice more, before another one of a round, at a time of that round's day."""

    def change(said: Said) -> Said:
        place = place_in(said, before, number)
        return [*said[:place], (kind, what, time_of(number, time)), *said[place:]]

    return change


def closed_at_50(*changes: Callable[[Said], Said]) -> Forge:
    """Round 3 is closed with 50 percent, and the notices say something else."""
    return both(
        lambda found: Evidence.__init__(found, TRUE, LAST_AT_50),
        says(both_ways(*changes), LAST_AT_50),
    )


def refused_then(*notices_between: tuple[str, dict[str, Any]]) -> Forge:
    """The closing of round 3 is refused. These notices follow, each a second after the other, and
    it is closed with 50 percent.
    """
    return closed_at_50(
        *(
            added("closed", 3, kind, what, f"14:30:1{place}")
            for place, (kind, what) in enumerate(notices_between, 1)
        )
    )


def draw_at(change: Callable[[Said], Said]) -> Forge:
    """The notices of an auction with a draw are others."""

    def forge(found: Evidence) -> None:
        drawn(found)
        found.published[notices.NAME] = chain_of(DRAWN, change(said_of(DRAWN, texts_of(DRAWN))))

    return forge


def draw_before(kind: str) -> Callable[[Said], Said]:
    """The draw comes just before a notice of round 1. No notice has its window."""

    def change(said: Said) -> Said:
        found = next(one for one in said if one[0] == "draw")
        rest = [one for one in unsaid("opened")(said) if one[0] != "draw"]
        place = place_in(rest, kind)
        return [*rest[:place], (*found[:2], rest[place][2]), *rest[place:]]

    return change


def witnessed(**changes: object) -> Forge:
    """A witness saved timetable.json in round 2."""
    true = {"announcements": 1, "ended": False, "paused": None, "round": 2, "windows": windows()}
    return lambda found: found.put("timetable.json", {**true, **changes})


PAUSED = [
    ("act", {"what": "pause", "who": "Ann", "round": 2}, time_of(2, "14:10:00")),
    (
        "announcement",
        {"key": "a", "text": "The auction is paused. A fire alarm."},
        time_of(2, "14:10:00"),
    ),
]


def with_pause(found: Evidence) -> None:
    """The auction was paused in round 2, and this was announced."""
    said = said_of(TRUE, TEXTS)
    place = place_in(said, "frozen", 2)
    found.published[notices.NAME] = chain_of(TRUE, [*said[:place], *PAUSED, *said[place:]])
    (_, text, time), made = PAUSED[1], found.page("announcements.json")["announcements"]
    made.insert(1, {**text, "time": time})
    numbered = [{**one, "number": number} for number, one in enumerate(made, 1)]
    found.put("announcements.json", {"announcements": numbered})


def lengthened(time: str) -> Callable[[Said], Said]:
    """A timetable of this time says that the window of round 2 ends at 14:45."""
    made = [dict(window) for window in windows()]
    made[1]["closes"] = time_of(2, "14:45:00")
    return both_ways(
        added("frozen", 2, "timetable", {"windows": made}, time),
        *(resaid(kind, 2, f"14:45:{at}0") for at, kind in enumerate(("frozen", "closed"), 1)),
    )


def opened_again(said: Said) -> Said:
    """The window of round 2 ends, nobody freezes its sheets, and it opens again later."""
    made = [dict(window) for window in windows()]
    made[1] |= {"opens": time_of(2, "14:40:00"), "closes": time_of(2, "14:45:00")}
    again = {"round": 2, "opens": time_of(2, "14:40:00")}
    return both_ways(
        added("frozen", 2, "timetable", {"windows": made}, "14:39:59"),
        added("frozen", 2, "opened", again, "14:40:00"),
        *(resaid(kind, 2, f"14:45:{at}0") for at, kind in enumerate(("frozen", "closed"), 1)),
    )(said)


def paused(said: Said) -> Said:
    """Round 2 is paused at 14:10, and opens again at 14:40."""
    act = {"what": "pause", "who": "Ann", "round": 2}
    made = opened_again(said)
    place = next(at for at, one in enumerate(made) if one[2] == time_of(2, "14:39:59"))
    return [*made[:place], ("act", act, time_of(2, "14:10:00")), *made[place:]]


def lengthened_and_opened_again(said: Said) -> Said:
    """The window of round 2 ends at 14:35, five minutes later than announced at first."""
    made = [dict(window) for window in windows()]
    made[1]["closes"] = time_of(2, "14:35:00")
    return opened_again(added("frozen", 2, "timetable", {"windows": made}, "14:20:00")(said))


def taken_around(change: Callable[[Said], Said], one: str, other: str) -> Forge:
    """The sheets of round 2 are taken at these two times, and the notices are changed."""
    first, *rest = SHEETS[1]
    texts = [
        *TEXTS[:4],
        sheet(first[0], 2, *first[1:], one),
        *(sheet(name, 2, *more, other) for name, *more in rest),
        *TEXTS[8:],
    ]
    return both(lambda found: Evidence.__init__(found, TRUE, texts), says(change, texts))


ROWS: dict[str, Row] = {
    "70-a-rule-before-a-late-word-of-the-opening": (
        closed_at_50(
            added("opened", 3, "increments", RULE_OF_50, "14:20:00"),
            resaid("opened", 3, "14:21:00"),
        ),
        BIDDERS,
        "increments",
    ),
    "70.1h-a-rule-for-later-rounds-while-no-conductor-runs": (
        says(
            both_ways(
                added("opened", 3, "increments", RULE_OF_50, "14:20:00"),
                resaid("opened", 3, "14:21:00"),
            )
        ),
        BIDDERS,
        NOTHING,
    ),
    "70.2h-a-rule-that-is-noticed-some-seconds-late": (
        closed_at_50(
            added("opened", 3, "increments", RULE_OF_50, "14:00:03"),
            resaid("opened", 3, "14:00:04"),
        ),
        BIDDERS,
        NOTHING,
    ),
    "70.3h-a-rule-after-a-refused-closing-and-a-person-s-word": (
        refused_then(("increments", RULE_OF_50), ("act", NEXT_3)),
        BIDDERS,
        NOTHING,
    ),
    "70.4-a-rule-after-the-freezing-without-a-word": (
        refused_then(("increments", RULE_OF_50)),
        BIDDERS,
        "increments",
    ),
    "70.5-a-rule-after-the-word": (
        refused_then(("act", NEXT_3), ("increments", RULE_OF_50)),
        BIDDERS,
        "increments",
    ),
    "70.6-a-word-before-the-freezing": (
        closed_at_50(
            added("frozen", 3, "increments", RULE_OF_50, "14:20:00"),
            added("frozen", 3, "act", NEXT_3, "14:20:01"),
        ),
        BIDDERS,
        "increments",
    ),
    "70.7-a-word-of-another-round": (
        refused_then(("increments", RULE_OF_50), ("act", {**NEXT_3, "round": 2})),
        BIDDERS,
        "increments",
    ),
    "71-a-draw-after-sheets-were-frozen-without-a-window": (
        draw_at(draw_before("closed")),
        NOTHING,
        "draw",
    ),
    "71.1-a-draw-after-a-person-closed-round-1": (
        draw_at(
            lambda said: added("draw", 1, "act", CLOSE_1, "14:29:00")(draw_before("frozen")(said))
        ),
        NOTHING,
        "draw",
    ),
    "72-a-record-with-a-false-number-of-announcements": (
        both(end_of_timetable(announcements=4), made_record),
        NOTHING,
        "windows",
    ),
    "72.1-a-record-whose-timetable-says-more": (
        both(end_of_timetable(results="at 16:00"), made_record),
        NOTHING,
        "windows",
    ),
    "72.2-a-record-whose-timetable-is-of-a-mock": (
        both(end_of_timetable(mock=True), made_record),
        NOTHING,
        "windows",
    ),
    "73h-a-timetable-that-was-saved-in-round-2": (witnessed(), BIDDERS, NOTHING),
    "73.1h-one-that-was-saved-before-the-first-plan": (
        witnessed(announcements=0, round=1, windows=[]),
        BIDDERS,
        NOTHING,
    ),
    "73.2h-one-that-was-saved-in-a-pause": (
        both(with_pause, witnessed(announcements=2, paused="A fire alarm.")),
        BIDDERS,
        NOTHING,
    ),
    "73.3-one-with-a-pause-that-was-not-announced": (
        witnessed(paused="A fire alarm."),
        NOTHING,
        "windows",
    ),
    "73.4-one-with-an-end-that-was-none": (witnessed(ended=True), NOTHING, "windows"),
    "73.5-one-with-a-round-that-never-came": (witnessed(round=4), NOTHING, "windows"),
    "73.6-one-with-announcements-that-were-none": (
        witnessed(announcements=4),
        NOTHING,
        "windows",
    ),
    "74-frozen-twice-with-a-word-to-everyone-between": (
        says(
            both_ways(
                added("frozen", 2, "frozen", {"round": 2, "digest": "0" * 64}, "14:30:10"),
                lambda said: [
                    *said[: (place := place_in(said, "frozen", 2) + 1)],
                    ("act", {"what": "announce", "who": "Ann"}, time_of(2, "14:30:10")),
                    *said[place:],
                ],
            )
        ),
        NOTHING,
        "rounds",
    ),
    "75.2-an-act-that-is-said-after-the-closing": (
        says(
            both_ways(
                resaid("frozen", 2, "14:20:00"),
                lambda said: [*said, ("act", {**CLOSE_1, "round": 2}, said[-1][2])],
            )
        ),
        NOTHING,
        "windows",
    ),
    "75.3h-a-sheet-before-a-pause-and-one-after-it": (
        taken_around(paused, "14:10:00", "14:41:00"),
        BIDDERS,
        NOTHING,
    ),
    "75.4-a-friend-s-sheet-in-a-pause": (
        taken_around(paused, "14:05:00", "14:30:00"),
        BIDDERS,
        "windows",
    ),
    "75.5-a-friend-s-sheet-between-two-windows": (
        taken_around(opened_again, "14:05:00", "14:35:00"),
        BIDDERS,
        "windows",
    ),
    "75.6h-a-sheet-in-the-time-that-was-added": (
        taken_around(lengthened_and_opened_again, "14:33:00", "14:42:00"),
        BIDDERS,
        NOTHING,
    ),
    "75h-a-window-lengthened-in-its-last-second": (says(lengthened("14:29:59")), BIDDERS, NOTHING),
    "75.1-a-window-lengthened-after-its-end": (says(lengthened("14:44:00")), BIDDERS, NOTHING),
}


@pytest.mark.parametrize(("forge", "receipts", "shown"), ROWS.values(), ids=ROWS)
def test_a_row(tmp_path: pathlib.Path, forge: Forge, receipts: str, shown: str) -> None:
    found = Evidence(TRUE, TEXTS)
    forge(found)
    failed = found.failed(tmp_path, receipts)
    assert failed.keys() >= set(shown.split()), failed
    assert shown or not failed, failed


def test_both_times_are_named_if_a_window_opened_at_another_time(tmp_path: pathlib.Path) -> None:
    found = Evidence(TRUE, TEXTS)
    opens = time_of(2, "14:00:00")
    other = time_of(2, "14:04:00")
    says(resaid("opened", 2, "14:05:00", opens=other))(found)
    words = found.failed(tmp_path, NOTHING)["windows"]
    assert opens in words and other in words


# ---- What is said, and fails nothing


def words_of(forge: Forge, folder: pathlib.Path, subject: str, receipts: str = "") -> str:
    """The words of a check that does not fail."""
    found = Evidence(TRUE, TEXTS)
    forge(found)
    case = found.case(folder, receipts)
    one = next(finding for finding in findings(case) if finding.subject == subject)
    assert one.result != FAILED, one
    return one.words


@pytest.mark.parametrize(
    ("time", "is_late"), [("14:29:59", False), ("14:30:50", False), ("14:44:00", True)]
)
def test_a_window_that_is_lengthened_long_after_its_end_is_named(
    tmp_path: pathlib.Path, time: str, is_late: bool
) -> None:
    """A crash may come between a change and its notice."""
    words = words_of(says(lengthened(time)), tmp_path, "windows")
    assert (f"LATE: the window of round 2 was lengthened at {time_of(2, time)}" in words) == is_late


def test_who_let_a_round_close_by_a_later_rule_is_named(tmp_path: pathlib.Path) -> None:
    forge = refused_then(("increments", RULE_OF_50), ("act", NEXT_3))
    words = words_of(forge, tmp_path, "increments")
    assert (
        "BY HAND: Ann let round 3 close with the increments [50], by the rule of notice " in words
    )


def test_a_window_that_opens_again_without_a_freezing_is_named(tmp_path: pathlib.Path) -> None:
    words = words_of(says(opened_again), tmp_path, "windows")
    assert "AGAIN: the window of round 2 opened 2 times" in words


@pytest.mark.parametrize(
    ("time", "number"),
    [
        ("13:59:59", 0),
        ("14:05:00", 2),
        ("14:20:00", 0),
        ("14:39:00", 0),
        ("14:42:00", 2),
        ("14:45:00", 0),
    ],
)
def test_a_sheet_that_was_refused_in_an_open_window_is_named(
    tmp_path: pathlib.Path, time: str, number: int
) -> None:
    """Round 2 is open from 14:00 until a pause at 14:10, and from 14:40 to 14:45."""

    def refused(found: Evidence) -> None:
        says(paused)(found)
        one = Refusal(digest_of(TRUE.document), "Q", "", 1, time_of(2, time))
        found.files["Q"].append(json.loads(one.page(sign(TRUE.key, one.message()))))

    words = words_of(refused, tmp_path, "receipts", "Q")
    assert ("REFUSED: a sheet of Q was refused at" in words) == bool(number)
    assert (f"while the window of round {number} was open" in words) == bool(number)


def test_a_page_that_its_witness_changed_is_not_taken_against_the_operator(
    tmp_path: pathlib.Path,
) -> None:
    """The operator signed the digest of the journal."""
    found = Evidence(TRUE, TEXTS)
    found.put("rounds/2.json", {**found.page("rounds/2.json"), "digest": "0" * 64})
    assert "proves nothing against the operator" in found.failed(tmp_path)["digests"]


def test_a_page_that_the_operator_signed_is_taken_against_it(tmp_path: pathlib.Path) -> None:
    """The journal was changed after the closing, and the notices have the digest of before."""
    found = Evidence(TRUE, TEXTS)
    after(without(0))(found)
    assert "proves nothing" not in found.failed(tmp_path)["digests"]


def announced_at(time: str) -> Callable[[Said], Said]:
    """A window of round 2 from 14:10 on is announced at this time."""
    made = [dict(window) for window in windows()]
    made[1]["opens"] = time_of(2, "14:10:00")
    return both_ways(
        added("opened", 2, "timetable", {"windows": made}, time),
        resaid("opened", 2, "14:25:00", opens=time_of(2, "14:10:00")),
    )


@pytest.mark.parametrize(("time", "is_late"), [("14:10:50", False), ("14:20:00", True)])
def test_a_window_that_is_announced_once_it_is_open_is_named(
    tmp_path: pathlib.Path, time: str, is_late: bool
) -> None:
    words = words_of(says(announced_at(time)), tmp_path, "windows")
    assert ("LATE: the window of round 2 was announced at" in words) == is_late


def test_an_auction_whose_sheets_have_no_time_is_named(tmp_path: pathlib.Path) -> None:
    """The operator takes all sheets past nginx, so that nobody sees a late one."""
    made = list[bytes]()
    for number, sheets in enumerate(SHEETS, 1):
        made += [sheet(name, number, *bid, taken="") for name, *bid in sheets]
        made.append(TRUE.closing(number))
    words = words_of(lambda found: Evidence.__init__(found, TRUE, made), tmp_path, "windows")
    assert "NO TIMES" in words
    assert "NO TIMES" not in words_of(says(lambda said: said), tmp_path, "windows")
