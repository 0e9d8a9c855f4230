"""The table of forgeries around notices: what the operator announced, and what copies prove."""
import pathlib
from collections.abc import Callable
from typing import Any

import pytest

from auction.formats import notices
from tests.forgeries.changes import (
    Change,
    DRAWN,
    NOTHING,
    PUT,
    REPLAY,
    Row,
    TEXTS,
    TRUE,
    both,
    drawn,
    left_out,
    made_record,
    published,
    swapped,
    value,
    with_announcement,
    with_text,
    without,
)
from tests.forgeries.written import (
    BIDDERS,
    OTHER_KEY,
    Evidence,
    Forge,
    Promise,
    Said,
    Texts,
    chain_of,
    frozen_of,
    said_of,
    sheet,
    texts_of,
    time_of,
    windows,
)

pytestmark = pytest.mark.early


def says(change: Callable[[Said], Said], texts: Texts = TEXTS) -> Forge:
    """The operator signs other notices than the true ones of these requests."""

    def forge(found: Evidence) -> None:
        found.published[notices.NAME] = chain_of(TRUE, change(said_of(TRUE, texts)))

    return forge


def place_in(said: Said, kind: str, number: int = 1) -> int:
    """The place of a notice of a kind, and of a round if it has one."""
    return next(
        place
        for place, (one, parts, _) in enumerate(said)
        if one == kind and parts.get("round", number) == number
    )


def resaid(kind: str, number: int = 1, time: str = "", **parts: Any) -> Callable[[Said], Said]:
    """One notice says something else, or has another time of its day."""

    def change(said: Said) -> Said:
        place = place_in(said, kind, number)
        _, old, at = said[place]
        new = (kind, {**old, **parts}, time_of(number, time) if time else at)
        return [*said[:place], new, *said[place + 1 :]]

    return change


def unsaid(kind: str, number: int = 1) -> Callable[[Said], Said]:
    def change(said: Said) -> Said:
        place = place_in(said, kind, number)
        return said[:place] + said[place + 1 :]

    return change


def moved(kind: str, number: int, other: str) -> Callable[[Said], Said]:
    """A notice comes just before another one of its round."""

    def change(said: Said) -> Said:
        place = place_in(said, kind, number)
        rest = said[:place] + said[place + 1 :]
        before = place_in(rest, other, number)
        return [*rest[:before], said[place], *rest[before:]]

    return change


def timetable_again(number: int, **times: str) -> Callable[[Said], Said]:
    """Another timetable while the window of a round is open, with other times of it."""

    def change(said: Said) -> Said:
        made = [dict(window) for window in windows()]
        made[number - 1].update({name: time_of(number, time) for name, time in times.items()})
        place = place_in(said, "frozen", number)
        new = ("timetable", {"windows": made}, time_of(number, "14:05:00"))
        return [*said[:place], new, *said[place:]]

    return change


def both_ways(*changes: Callable[[Said], Said]) -> Callable[[Said], Said]:
    def change(said: Said) -> Said:
        for one in changes:
            said = one(said)
        return said

    return change


def rule_again(said: Said) -> Said:
    """The rule of increments is changed while the window of round 3 is open."""
    place = place_in(said, "frozen", 3)
    new = ("increments", {"rules": [{"percent": 50}]}, time_of(3, "14:20:00"))
    return [*said[:place], new, *said[place:]]


def frozen_before(change: Change) -> Forge:
    """The operator freezes the true journal, and then changes what it closes."""
    forged = change(TEXTS)

    def forge(found: Evidence) -> None:
        found.publish(TRUE, forged)
        frozen, said = frozen_of(TRUE.document, TEXTS), said_of(TRUE, forged)
        for number, digest in enumerate(frozen, 1):
            said = resaid("frozen", number, digest=digest)(said)
        found.published[notices.NAME] = chain_of(TRUE, said)

    return forge


def late_draw(found: Evidence) -> None:
    drawn(found)
    said = moved("draw", 1, "frozen")(said_of(DRAWN, texts_of(DRAWN)))
    found.published[notices.NAME] = chain_of(DRAWN, said)


def other_draw(found: Evidence) -> None:
    drawn(found)
    said = resaid("draw", words="1 2 3")(said_of(DRAWN, texts_of(DRAWN)))
    found.published[notices.NAME] = chain_of(DRAWN, said)


def no_draw_said(found: Evidence) -> None:
    drawn(found)
    said = unsaid("draw")(said_of(DRAWN, texts_of(DRAWN)))
    found.published[notices.NAME] = chain_of(DRAWN, said)


def end_of_timetable(**changes: object) -> Forge:
    true = {"announcements": 3, "ended": True, "paused": None, "round": 3, "windows": windows()}
    return lambda found: found.put("timetable.json", {**true, **changes})


def copied(change: Callable[[bytes], bytes] = lambda text: text) -> Forge:
    """A witness gives a copy of the notices, as they were or changed."""
    return lambda found: found.copies.append(change(found.published[notices.NAME]))


def other_key(found: Evidence) -> None:
    found.copies.append(chain_of(Promise(TRUE.document, key=OTHER_KEY), said_of(TRUE, TEXTS)))


def signed_by_another(found: Evidence) -> None:
    """Someone else writes the same chain, after the true commitment."""
    text = b""
    for kind, says, time in said_of(TRUE, TEXTS):
        text = notices.appended(text, TRUE.commitment(), OTHER_KEY, kind, says, time)
    found.published[notices.NAME] = text


def without_lines(*places: int) -> Callable[[bytes], bytes]:
    def change(text: bytes) -> bytes:
        lines = text.splitlines(keepends=True)
        return b"".join(line for place, line in enumerate(lines) if place not in places)

    return change


EXTENDED = both_ways(
    timetable_again(2, closes="14:40:00"),
    *(resaid(kind, 2, f"14:40:{at}0") for at, kind in enumerate(("frozen", "closed"), 1)),
)
REOPENED = both_ways(
    timetable_again(2, opens="14:20:00", closes="14:45:00"),
    lambda said: [
        *said[: (place := place_in(said, "frozen", 2))],
        ("opened", {"round": 2, "opens": time_of(2, "14:20:00")}, time_of(2, "14:20:01")),
        *said[place:],
    ],
    *(resaid(kind, 2, f"14:45:{at}0") for at, kind in enumerate(("frozen", "closed"), 1)),
)


def by_hand(found: Evidence) -> None:
    """A person ends round 3 early, with another increment, and a notice names her."""
    texts = TEXTS[:-1] + [TRUE.closing(3, 50)]
    Evidence.__init__(found, TRUE, texts)
    said = timetable_again(3, closes="14:20:00")(said_of(TRUE, texts))
    place = place_in(said, "frozen", 3)
    act = ("act", {"what": "close", "who": "Ann", "round": 3}, time_of(3, "14:19:00"))
    found.published[notices.NAME] = chain_of(TRUE, [*said[:place], act, *said[place:]])


def friend(taken: str) -> Forge:
    """The operator takes a friend's sheet at this time, before it freezes the journal."""
    texts = with_text(0, sheet("Q", 1, 1, 100, taken))(TEXTS)
    return lambda found: Evidence.__init__(found, TRUE, texts)


FROZEN_AGAIN = both_ways(
    lambda said: [
        *said[: (place := place_in(said, "frozen", 2))],
        ("frozen", {"round": 2, "digest": "0" * 64}, time_of(2, "14:30:10")),
        *said[place:],
    ],
    lambda said: [
        *said[: (place := place_in(said, "frozen", 2) + 1)],
        ("act", {"what": "extend", "who": "Ann", "round": 2}, time_of(2, "14:30:15")),
        *said[place:],
    ],
)

NOTICES: dict[str, Row] = {
    "60h-a-window-that-was-extended": (says(EXTENDED), BIDDERS, NOTHING),
    "60.1h-a-window-that-was-opened-again": (says(REOPENED), BIDDERS, NOTHING),
    "60.2h-a-rule-for-the-next-rounds": (
        says(lambda said: [*said, ("increments", {"rules": [{"percent": 50}]}, said[-1][2])]),
        BIDDERS,
        NOTHING,
    ),
    "60.3h-timetable-json-of-the-end": (both(end_of_timetable(), made_record), BIDDERS, NOTHING),
    "60.4h-frozen-late": (says(resaid("frozen", 3, "14:50:00")), BIDDERS, NOTHING),
    "60.5h-closed-early-by-a-person-who-is-named": (by_hand, BIDDERS, NOTHING),
    "60.6h-frozen-again-after-an-extension": (says(FROZEN_AGAIN), BIDDERS, NOTHING),
    "61-a-sheet-put-in-after-the-freezing": (frozen_before(PUT), NOTHING, "rounds"),
    "61.1-a-sheet-put-in-again-after-it": (frozen_before(REPLAY), NOTHING, "rounds"),
    "61.2-a-sheet-left-out-after-it": (frozen_before(without(12)), NOTHING, "rounds"),
    "61.3-sheets-exchanged-after-it": (frozen_before(swapped(0, 1)), NOTHING, "rounds"),
    "62-no-freezing": (says(unsaid("frozen", 2)), NOTHING, "rounds"),
    "62.1-frozen-after-the-closing": (says(moved("closed", 2, "frozen")), NOTHING, "rounds"),
    "62.2-no-closing-said": (says(unsaid("closed", 2)), NOTHING, "rounds"),
    "62.3-no-publication-said": (says(unsaid("published", 2)), NOTHING, "rounds"),
    "62.4-no-end-said": (says(unsaid("ended", 3)), NOTHING, "rounds"),
    "62.5-published-before-the-closing": (
        says(moved("published", 2, "closed")),
        NOTHING,
        "rounds",
    ),
    "62.6-another-digest-of-a-closing": (
        says(resaid("closed", 2, digest="0" * 64)),
        NOTHING,
        "rounds",
    ),
    "62.7-another-increment-of-a-closing": (
        says(resaid("closed", 2, increment=11)),
        NOTHING,
        "rounds",
    ),
    "62.8-frozen-twice": (
        says(lambda said: [*said, ("frozen", {"round": 2, "digest": "0" * 64}, said[-1][2])]),
        NOTHING,
        "rounds",
    ),
    "62.11-frozen-with-another-digest-before": (
        says(
            lambda said: [
                *said[: (place := place_in(said, "frozen", 2))],
                ("frozen", {"round": 2, "digest": "0" * 64}, time_of(2, "14:30:10")),
                *said[place:],
            ]
        ),
        NOTHING,
        "rounds",
    ),
    "62.9-a-round-closed-that-is-none": (
        says(
            lambda said: [
                *said,
                ("closed", {"round": 4, "digest": "0" * 64, "increment": 10}, said[-1][2]),
            ]
        ),
        NOTHING,
        "rounds",
    ),
    "62.10-ended-a-round-earlier": (
        says(lambda said: [*said, ("ended", {"round": 2}, said[-1][2])]),
        NOTHING,
        "rounds",
    ),
    "63-a-window-that-ends-early": (says(resaid("frozen", 2, "14:29:59")), NOTHING, "windows"),
    "63.1-a-window-shortened-while-it-is-open": (
        says(timetable_again(2, closes="14:20:00")),
        NOTHING,
        "windows",
    ),
    "63.2-a-window-that-opens-early": (says(resaid("opened", 2, "13:59:59")), NOTHING, "windows"),
    "63.3-a-window-at-another-time-than-announced": (
        says(resaid("opened", 2, opens=time_of(2, "14:10:00"))),
        NOTHING,
        "windows",
    ),
    "63.4-a-window-that-was-not-announced": (
        says(resaid("timetable", windows=windows()[:2])),
        NOTHING,
        "windows",
    ),
    "63.5-a-window-whose-opening-nobody-said": (says(unsaid("opened", 2)), NOTHING, "windows"),
    "63.6-a-round-published-before-its-window-s-end": (
        value("rounds/2.json", published=time_of(2, "14:10:00")),
        NOTHING,
        "windows",
    ),
    "63.7-a-false-timetable": (end_of_timetable(windows=windows()[:7]), NOTHING, "windows"),
    "63.8-a-timetable-that-has-not-ended": (
        both(end_of_timetable(ended=False), made_record),
        NOTHING,
        "windows",
    ),
    "63.9-a-timetable-that-is-paused": (
        both(end_of_timetable(paused="Lunch."), made_record),
        NOTHING,
        "windows",
    ),
    "63.10-a-timetable-of-another-round": (
        both(end_of_timetable(round=4), made_record),
        NOTHING,
        "windows",
    ),
    "63.11-a-friend-s-sheet-after-the-window": (friend("14:31:00"), BIDDERS, "windows"),
    "63.12-a-friend-s-sheet-past-nginx": (friend(""), BIDDERS, "windows"),
    "63.13-a-friend-s-sheet-before-the-window": (friend("13:59:00"), BIDDERS, "windows"),
    "63.14-a-friend-s-late-sheet-with-a-false-time": (friend("14:20:00"), BIDDERS, NOTHING),
    "64-a-rule-changed-when-bids-are-known": (
        both(
            lambda found: Evidence.__init__(found, TRUE, TEXTS[:-1] + [TRUE.closing(3, 50)]),
            says(rule_again, TEXTS[:-1] + [TRUE.closing(3, 50)]),
        ),
        NOTHING,
        "increments",
    ),
    "64.1-a-rule-that-came-late": (says(moved("increments", 1, "frozen")), NOTHING, "increments"),
    "64.2-no-rule-announced": (says(unsaid("increments")), NOTHING, NOTHING),
    "64.3-no-timetable-announced": (says(unsaid("timetable")), NOTHING, NOTHING),
    "65-a-draw-after-the-first-window-opened": (late_draw, NOTHING, "draw"),
    "65.1-another-draw-announced": (other_draw, NOTHING, "draw"),
    "65.2-a-draw-that-nobody-announced": (no_draw_said, NOTHING, "draw"),
    "66-another-announcement-than-was-signed": (
        says(resaid("announcement", key="closed-1", text="Round 1 is closed.")),
        NOTHING,
        "announcements",
    ),
    "66.1-an-announcement-that-was-not-signed": (
        both(
            lambda found: with_announcement(found, "note", "The increment is 50 percent."),
            made_record,
        ),
        NOTHING,
        "announcements",
    ),
    "66.2-an-announcement-that-is-left-out": (
        both(
            says(lambda said: [*said, ("announcement", {"key": "a", "text": "b"}, said[-1][2])]),
            made_record,
        ),
        NOTHING,
        "announcements",
    ),
    "67-no-notices": (left_out(notices.NAME), BIDDERS, NOTHING),
    "67.1-no-notices-and-a-saved-copy": (
        both(copied(), left_out(notices.NAME)),
        NOTHING,
        "copies",
    ),
    "67.2-notices-that-end-early": (
        published(notices.NAME, without_lines(*range(5, 40))),
        NOTHING,
        "rounds",
    ),
    "67.3-notices-of-another-key": (
        lambda found: found.published.update(
            {notices.NAME: chain_of(Promise(TRUE.document, key=OTHER_KEY), said_of(TRUE, TEXTS))}
        ),
        NOTHING,
        "notices",
    ),
    "67.4-an-entry-left-out": (
        published(notices.NAME, without_lines(3)),
        NOTHING,
        "notices",
    ),
    "67.5-notices-that-another-key-signed": (
        signed_by_another,
        NOTHING,
        "notices",
    ),
    "68-two-chains": (both(copied(), says(resaid("frozen", 3, "14:40:00"))), NOTHING, "copies"),
    "68.1-a-cut-file-and-a-longer-copy": (
        both(copied(), published(notices.NAME, without_lines(*range(9, 40)))),
        NOTHING,
        "copies rounds",
    ),
    "69-a-copy-that-is-the-same": (copied(), BIDDERS, NOTHING),
    "69.1-a-copy-of-an-earlier-hour": (copied(without_lines(*range(5, 40))), BIDDERS, NOTHING),
    "69.2-a-copy-that-an-accuser-cut": (copied(without_lines(4)), BIDDERS, NOTHING),
    "69.3-a-copy-of-the-accuser-s-key": (other_key, BIDDERS, NOTHING),
    "69.4-a-copy-with-another-word": (
        copied(lambda text: text.replace(b'"percent":10', b'"percent":20')),
        BIDDERS,
        NOTHING,
    ),
}


@pytest.mark.parametrize(("forge", "receipts", "shown"), NOTICES.values(), ids=NOTICES)
def test_a_row_of_notices(tmp_path: pathlib.Path, forge: Forge, receipts: str, shown: str) -> None:
    found = Evidence(TRUE, TEXTS)
    forge(found)
    failed = found.failed(tmp_path, receipts)
    assert failed.keys() >= set(shown.split()), failed
    assert shown or not failed, failed
