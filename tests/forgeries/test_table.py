"""The table of forgeries: who changes what, whose files an auditor has, and what shows it.

Each row has what a forger does, whose files an auditor has, and the lines of `auction verify` that
must fail. NOTHING marks a row that no line shows, and a control that no line may report.
"""
import copy
import json
import pathlib
from collections.abc import Callable

import pytest

from auction.formats.receipts import Receipt, digest_of
from auction.formats.signatures import public_of, sign
from auction.formats.ties import LENGTH, seed_of
from tests.forgeries.changes import (
    CLOSINGS,
    Change,
    DRAWN,
    FRIEND,
    NOTHING,
    PUT,
    REPLAY,
    Row,
    TEXTS,
    TRUE,
    after,
    before,
    both,
    drawn,
    edited,
    honest,
    journal,
    left_out,
    lines,
    made_record,
    published,
    set_up,
    swapped,
    value,
    with_announcement,
    with_text,
    without,
)
from tests.forgeries.written import (
    BIDDERS,
    OTHER_KEY,
    OTHER_SECRET,
    Evidence,
    Forge,
    Promise,
    Texts,
    file_of,
    pages_of,
    receipts_of,
    sheet,
    texts_of,
)
from tests.lib import setups
from tests.lib.http import compact, text_of
from tests.lib.journals import body_in

pytestmark = pytest.mark.early
# ---- Journals


def number_changed(texts: Texts) -> Texts:
    """Adds 1 to a tie-breaking number of round 3."""
    body = json.loads(body_in(texts[-1]))
    old = b"[0,0,%d]" % body["ties"][0][2]
    new = b"[0,0,%d]" % (body["ties"][0][2] ^ 1)
    return edited(len(texts) - 1, old, new)(texts)


def with_ties(change: Callable[[list[list[int]]], list[list[int]]]) -> Change:
    """Changes the list of tie-breaking numbers of round 3."""

    def made(texts: Texts) -> Texts:
        body = json.loads(body_in(texts[-1]))
        body["ties"] = change(body["ties"])
        return [*texts[:-1], closing_of(body)]

    return made


def closing_of(body: object) -> bytes:
    return text_of("POST /v1/close", setups.OPERATOR, compact(body))


JOURNALS: dict[str, Row] = {
    "1-a-sheet-removed-after-the-end": (after(without(0)), NOTHING, "digests results rules"),
    "2-two-bidders-reordered": (after(swapped(0, 1)), NOTHING, "digests"),
    "2.1-reordered-before-the-closing-harmless": (before(swapped(0, 1)), "XYZ", NOTHING),
    "3-a-closing-twice": (
        after(with_text(CLOSINGS[0], TEXTS[CLOSINGS[0]])),
        NOTHING,
        "digests results rules",
    ),
    "4-another-seed": (value("rounds/2.json", seed="0" * 64), NOTHING, "ties"),
    "4.1-the-seed-of-another-round": (
        value("rounds/2.json", seed=(TRUE.seed(3) or b"").hex()),
        NOTHING,
        "ties",
    ),
    "5-a-tie-breaking-number-changed": (before(number_changed), "XYZ", "ties"),
    "5.1-a-pair-left-out": (before(with_ties(lambda ties: ties[1:])), NOTHING, "ties"),
    "5.2-pairs-in-another-order-harmless": (
        before(with_ties(lambda ties: ties[::-1])),
        "XYZ",
        NOTHING,
    ),
    "6-another-price-in-the-set-up": (
        set_up(b'"opening": 100', b'"opening": 99'),
        NOTHING,
        "commitment digests",
    ),
    "6.1-other-units": (set_up(b'"units": 1', b'"units": 2'), NOTHING, "commitment digests"),
    "6.2-another-requirement": (
        set_up(b'"requirement": 50', b'"requirement": 51'),
        NOTHING,
        "commitment digests",
    ),
    "6.3-another-name": (set_up(b'"name": "Z"', b'"name": "W"'), NOTHING, "commitment digests"),
    "6.4-a-line-feed-more": (
        lambda found: found.replace(Promise(TRUE.document + b"\n"), TEXTS),
        NOTHING,
        "commitment digests",
    ),
    "6.5-another-set-up-and-all-published-again": (
        lambda found: found.publish(Promise(TRUE.document + b"\n"), TEXTS),
        "X",
        "receipts",
    ),
    "7-a-byte-cut-off": (journal(lambda text: text[:-1]), NOTHING, "digests journal"),
    "7.1-many-bytes-cut-off": (journal(lambda text: text[:-45]), NOTHING, "digests journal"),
    "7.3-cut-inside-its-head": (journal(lambda text: text[:30]), NOTHING, "digests journal"),
    "7.4-the-last-byte-flipped": (
        journal(lambda text: text[:-1] + bytes([text[-1] ^ 1])),
        NOTHING,
        "digests journal",
    ),
    "8-a-sheet-after-the-end": (after(lambda texts: [*texts, texts[-2]]), NOTHING, "rules"),
    "10-zeros-at-the-end": (journal(lambda text: text + bytes(5)), NOTHING, "journal"),
    "11-a-sheet-left-out": (before(without(12)), "Y", "receipts"),
    "12h-a-sheet-that-its-next-one-replaces": (honest, BIDDERS, NOTHING),
    "12-a-replaced-sheet-put-in-again": (before(REPLAY), "XYZ", "receipts"),
    "13-a-sheet-put-in": (before(PUT), "XYZ", "receipts"),
    "14-a-sheet-put-in-for-one-that-never-bid": (before(with_text(0, FRIEND)), "Q", "receipts"),
    "15-a-friend-s-late-sheet": (
        lambda found: Evidence.__init__(found, TRUE, with_text(0, FRIEND)(TEXTS)),
        BIDDERS,
        NOTHING,
    ),
    "16-a-bidder-s-sheets-swapped": (before(swapped(11, 12)), "Y", "receipts"),
    "17-a-header-more": (
        before(edited(7, b"content-length:", b"x: y\r\ncontent-length:")),
        "Y",
        "receipts",
    ),
    "20-another-increment-than-announced": (
        lambda found: Evidence.__init__(found, TRUE, texts_of(TRUE)[:-1] + [TRUE.closing(3, 50)]),
        BIDDERS,
        "increments",
    ),
}


def no_ties(found: Evidence) -> None:
    """The operator commits to no numbers, with a friend first in the set-up."""
    promise = Promise(TRUE.document, secret=None)
    Evidence.__init__(found, promise, texts_of(promise))


JOURNALS["21-no-numbers-and-a-friend-first"] = (no_ties, BIDDERS, NOTHING)


# ---- A public draw

LATE = Promise(TRUE.document, secret=OTHER_SECRET, draw="5 17 33")


def chosen_late(found: Evidence) -> None:
    """The operator chooses its chain after the draw, and publishes a commitment then."""
    Evidence.__init__(found, LATE, texts_of(LATE))


def with_copy(found: Evidence) -> None:
    """A witness saved the commitment of before the draw."""
    found.commitment = DRAWN.commitment()


def saved_before(found: Evidence) -> None:
    """The witness's own files begin with the commitment of before the draw."""
    found.published["commitment.json"] = DRAWN.commitment()


DRAWS: dict[str, Row] = {
    "22c-an-honest-draw": (drawn, BIDDERS, NOTHING),
    "22b-an-honest-draw-and-a-copy-of-before": (both(drawn, with_copy), BIDDERS, NOTHING),
    "22-a-chain-chosen-after-the-draw": (chosen_late, "XY", NOTHING),
    "22.1-the-same-and-a-copy-of-before": (
        both(chosen_late, with_copy),
        NOTHING,
        "commitment draw ties",
    ),
    "22.2-the-same-saved-before": (both(chosen_late, saved_before), NOTHING, "draw ties"),
    "22.3-a-draw-left-out": (both(drawn, left_out("draw.json")), NOTHING, "ties"),
}

# ---- Bidders' files


def other_receipts(found: Evidence, first: bool = False) -> None:
    """X gives the receipts of another auction of this set-up, with another key."""
    other = file_of(Promise(TRUE.document, key=OTHER_KEY), TEXTS, "X")
    found.files["X"] = other if first else [found.files["X"][0], *other[1:]]


def framing(found: Evidence) -> None:
    """X makes a key, a commitment, and the receipt of a sheet that was never accepted."""
    other = Promise(TRUE.document, key=OTHER_KEY)
    claimed = Receipt.of(digest_of(TRUE.document), "X", 2, 2, sheet("X", 2, 0, 105))
    page = json.loads(claimed.page(sign(OTHER_KEY, claimed.message())))
    assert json.loads(other.commitment())["key"] == public_of(OTHER_KEY)
    found.files["X"] = [*file_of(other, TEXTS, "X"), page]


def stored_without_sent(found: Evidence) -> None:
    """Y's tool fetched the receipt of the sheet that was put in."""
    found.publish(TRUE, PUT(TEXTS))
    own = [line for line in found.files["Y"] if "signature" not in line]
    found.files["Y"] = [*own, *receipts_of(TRUE, PUT(TEXTS), "Y")]


def replayed_with_receipt(found: Evidence) -> None:
    """Y's tool fetched the receipt of its own sheet, which was put in again."""
    found.publish(TRUE, REPLAY(TEXTS))
    own = [line for line in found.files["Y"] if "signature" not in line]
    found.files["Y"] = [*own, *receipts_of(TRUE, REPLAY(TEXTS), "Y")]


FILES: dict[str, Row] = {
    "13.1-put-in-and-its-receipt-stored": (stored_without_sent, "XYZ", "receipts"),
    "12.1-put-in-again-and-its-receipt-stored": (replayed_with_receipt, "XYZ", "receipts"),
    "26-a-bidder-with-a-key-of-its-own": (framing, "X", "receipts"),
    "27-receipts-of-another-auction": (other_receipts, "X", "receipts"),
    "27.1-with-the-commitment-of-that-auction": (
        lambda found: other_receipts(found, first=True),
        "X",
        "receipts",
    ),
    "28-another-number-of-a-sheet": (
        lines("X", lambda file: [*file[:-1], {**file[-1], "sheet": 2}]),
        "X",
        "receipts",
    ),
    "29-a-receipt-of-another-bidder": (
        lambda found: found.files["X"].append(found.files["Y"][-1]),
        "X",
        "receipts",
    ),
    "30-a-receipt-left-out": (lines("Y", lambda file: file[:-1]), "Y", "receipts"),
    "31-a-receipt-twice": (lines("Y", lambda file: [*file, file[-1]]), "Y", "receipts"),
    "31.1-all-receipts-left-out": (lines("Y", lambda file: file[:2]), "Y", "receipts"),
    "31.2-nor-a-name-which-proves-nothing": (lines("Y", lambda file: file[:1]), "Y", NOTHING),
    "31.3-one-that-never-bid-says-so": (honest, "Q", NOTHING),
    "31.4-a-bidder-that-the-set-up-has-not": (
        lines("Q", lambda file: [file[0], {"bidder": "W"}]),
        "Q",
        "receipts",
    ),
}

# ---- What is published


def back_dated(found: Evidence) -> None:
    made = found.page("announcements.json")["announcements"]
    found.put(
        "announcements.json",
        {"announcements": [{**one, "time": "2026-11-01T15:00:00Z"} for one in made]},
    )


def without_announcement(found: Evidence) -> None:
    made = found.page("announcements.json")["announcements"]
    found.put("announcements.json", {"announcements": made[1:]})


def paid_more(found: Evidence) -> None:
    winners = copy.deepcopy(found.page("winners.json"))
    winners["bidders"][0]["pays"] += 1
    found.put("winners.json", winners)


def false_first(text: bytes) -> bytes:
    """A false value before the true one, under the same key."""
    return text.replace(b'"products":', b'"products":[],"products":', 1)


PUBLISHED: dict[str, Row] = {
    "32-announcements-back-dated": (back_dated, NOTHING, "announcements"),
    "33-a-round-announced-that-is-none": (
        lambda found: with_announcement(found, "closed-9", f"Its digest is {'0' * 64}."),
        NOTHING,
        "announcements",
    ),
    "33.1-an-announcement-left-out": (without_announcement, NOTHING, "announcements"),
    "34-no-announcements-and-no-winners": (
        left_out("announcements.json", "winners.json"),
        NOTHING,
        "announcements",
    ),
    "35-another-time-of-publication": (
        value("rounds/2.json", published="2026-11-01T15:00:00Z"),
        NOTHING,
        "windows",
    ),
    "36-a-payment-a-dollar-higher": (paid_more, NOTHING, "winners"),
    "38-false-products-first": (
        published("rounds/2.json", false_first),
        NOTHING,
        "digests results announcements ties",
    ),
    "39-other-words-for-the-same-values": (
        published("rounds/2.json", lambda text: text.replace(b":110,", b":110.0,")),
        NOTHING,
        "results",
    ),
    "45-a-shorter-chain": (
        published("commitment.json", lambda text: text.replace(b"10000", b"3")),
        NOTHING,
        "notices",
    ),
    "45.1-the-same-and-a-bidder-s-file": (
        published("commitment.json", lambda text: text.replace(b"10000", b"3")),
        "X",
        "receipts",
    ),
    "46-one-more-key": (value("rounds/2.json", note=1), NOTHING, "results"),
    "47-no-commitment": (left_out("commitment.json"), NOTHING, "commitment ties"),
    "48-no-round": (
        left_out(*(f"rounds/{number}.json" for number in (1, 2, 3))),
        NOTHING,
        "digests results announcements ties",
    ),
}

# ---- Records


def other_journal(found: Evidence) -> None:
    found.published["auction.journal"] += bytes(3)


def last_round_left_out(found: Evidence) -> None:
    del found.published["rounds/3.json"]


def added(name: str) -> Forge:
    return lambda found: found.published.update({name: b"round,price\n3,1\n"})


def changed(name: str) -> Forge:
    return published(name, lambda text: text[:-2] + b"9\n")


def again(found: Evidence) -> None:
    found.index_again()


RECORDS: dict[str, Row] = {
    "40h-an-honest-record": (made_record, BIDDERS, NOTHING),
    "40-no-index-and-a-false-table": (
        both(made_record, changed("winners.csv"), left_out("SHA256SUMS")),
        NOTHING,
        "index",
    ),
    "41-another-README": (both(made_record, changed("README.txt"), again), NOTHING, "tables"),
    "42-a-table-more": (both(made_record, added("notice.csv"), again), NOTHING, "tables"),
    "43-another-journal": (both(made_record, other_journal, again), NOTHING, "tables"),
    "43.1-another-set-up": (both(made_record, changed("setup.json"), again), NOTHING, "tables"),
    "44-the-last-round-left-out": (
        both(made_record, last_round_left_out, again),
        NOTHING,
        "digests results announcements ties tables",
    ),
}

# ---- Different files for different people

OTHER_PRICE = edited(9, b'"price":115', b'"price":112')

VIEWS: dict[str, Row] = {
    "50a-the-truth": (made_record, "XZ", NOTHING),
    "50b-another-price-of-X-shown-to-Y": (
        both(before(OTHER_PRICE), made_record),
        "Y",
        NOTHING,
    ),
    "50c-by-the-receipts-of-X": (both(before(OTHER_PRICE), made_record), "X", "receipts"),
}

ROWS: dict[str, Row] = {**JOURNALS, **DRAWS, **FILES, **PUBLISHED, **RECORDS, **VIEWS}


@pytest.mark.parametrize(("forge", "receipts", "shown"), ROWS.values(), ids=ROWS)
def test_a_row(tmp_path: pathlib.Path, forge: Forge, receipts: str, shown: str) -> None:
    found = Evidence(TRUE, TEXTS)
    forge(found)
    failed = found.failed(tmp_path, receipts)
    assert failed.keys() >= set(shown.split()), failed
    assert shown or not failed, failed


def test_the_chain_of_the_rows_is_that_of_the_commitment() -> None:
    assert TRUE.seed(0) == seed_of(TRUE.secret or b"", LENGTH, 0)
    assert pages_of(TRUE, TEXTS)["commitment.json"] == TRUE.commitment()
