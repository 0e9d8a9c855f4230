"""The chain of notices: what a reader refuses, and what two copies prove against whom."""
import dataclasses
import hashlib
import json
import pathlib
from typing import Any

import pytest

from auction.formats import notices
from auction.formats.notices import Entry, NoticesFault, appended, notices_in
from auction.formats.signatures import public_of
from auction.formats.strict import published
from auction.formats.ties import Commitment
from tests.forgeries.written import secret_of

pytestmark = pytest.mark.early

SECRET, OTHER = secret_of(1), secret_of(2)
DIGEST = "ab" * 32
WINDOW = {"round": 1, "opens": "2026-12-01T10:00:00Z", "closes": "2026-12-01T11:00:00Z"}
SAID: list[tuple[str, dict[str, Any], str]] = [
    ("timetable", {"windows": [WINDOW]}, "2026-11-30T09:00:00Z"),
    ("increments", {"rules": [{"percent": 20, "until": 3}, {"percent": 10}]}, WINDOW["opens"]),
    ("draw", {"words": "5 17 33"}, "2026-12-01T10:00:00Z"),
    ("opened", {"round": 1, "opens": WINDOW["opens"]}, "2026-12-01T10:00:00Z"),
    ("announcement", {"key": "open-1", "text": "Round 1 is open é."}, "2026-12-01T10:00:01Z"),
    ("act", {"what": "pause", "who": "Ann", "round": 1}, "2026-12-01T10:30:00Z"),
    ("act", {"what": "resume", "who": "Ann"}, "2026-12-01T10:31:00Z"),
    ("frozen", {"round": 1, "digest": DIGEST}, "2026-12-01T11:00:10Z"),
    ("closed", {"round": 1, "digest": DIGEST, "increment": [10, 20]}, "2026-12-01T11:00:20Z"),
    ("published", {"round": 1}, "2026-12-01T11:05:00Z"),
    ("ended", {"round": 1}, "2026-12-01T11:05:00Z"),
]


def commitment_of(secret: bytes, auction: str = "11" * 32) -> bytes:
    """The bytes of a commitment.json."""
    return published(Commitment(auction, None, public_of(secret)).value())


COMMITMENT = commitment_of(SECRET)


def chain(
    said: list[tuple[str, dict[str, Any], str]],
    secret: bytes = SECRET,
    commitment: bytes = COMMITMENT,
) -> bytes:
    """A file of these notices."""
    text = b""
    for kind, says, time in said:
        text = appended(text, commitment, secret, kind, says, time)
    return text


WHOLE = chain(SAID)
LINES = WHOLE.split(b"\n")[:-1]


def joined(lines: list[bytes]) -> bytes:
    return b"".join(line + b"\n" for line in lines)


def test_what_was_written_is_read() -> None:
    entries = notices_in(WHOLE, COMMITMENT)
    assert [(entry.kind, entry.says, entry.time) for entry in entries] == SAID
    assert [entry.number for entry in entries] == list(range(1, len(SAID) + 1))


def test_each_entry_has_the_digest_of_the_line_before() -> None:
    before = [COMMITMENT, *(line + b"\n" for line in LINES)]
    for line, last in zip(LINES, before):
        assert json.loads(line)["before"] == hashlib.sha256(last).hexdigest()


def test_the_signed_bytes_are_the_title_and_the_line_without_its_signature() -> None:
    entry = notices_in(WHOLE, COMMITMENT)[0]
    value = {key: json.loads(LINES[0])[key] for key in ("before", "kind", "number", "says", "time")}
    text = json.dumps(value, separators=(",", ":"), sort_keys=True)
    assert notices.message(entry) == b"clock_auction notice 1\n" + text.encode() + b"\n"


def test_an_empty_file_has_no_entry() -> None:
    assert notices_in(b"", COMMITMENT) == []


def test_an_entry_has_no_earlier_time_than_the_one_before() -> None:
    text = chain([SAID[5], SAID[0]])
    assert [entry.time for entry in notices_in(text, COMMITMENT)] == 2 * [SAID[5][2]]


def resigned(line: bytes, **changes: Any) -> bytes:
    """A line with other parts, signed by the operator, whatever a reader says of it."""
    value = {**json.loads(line), **changes, "signature": b""}
    entry = Entry(**value)
    signature = notices.sign(SECRET, notices.message(entry))
    return dataclasses.replace(entry, signature=signature).line()[:-1]


FIRST = LINES[0]
REFUSED: dict[str, tuple[bytes, str]] = {
    "an-entry-left-out": (joined(LINES[:3] + LINES[4:]), "line 4"),
    "the-first-entry-left-out": (joined(LINES[1:]), "line 1"),
    "two-entries-exchanged": (joined([*LINES[:2], LINES[3], LINES[2], *LINES[4:]]), "line 3"),
    "an-entry-twice": (joined([*LINES[:3], LINES[2], *LINES[3:]]), "line 4"),
    "a-line-that-is-cut": (WHOLE[:-1], f"line {len(LINES)}"),
    "an-empty-line": (joined([FIRST, b"", *LINES[1:]]), "line 2"),
    "a-line-ended-by-a-return": (WHOLE.replace(b"\n", b"\r\n", 1), "line 1"),
    "no-json": (joined([FIRST, b"a", *LINES[1:]]), "line 2"),
    "a-list": (joined([b"[]"]), "line 1"),
    "deep": (joined([b"[" * 100_000]), "line 1"),
    "not-utf-8": (joined([b"\xff"]), "line 1"),
    "with-spaces": (joined([FIRST.replace(b":", b": ", 1), *LINES[1:]]), "line 1"),
    "a-key-twice": (joined([FIRST.replace(b"{", b'{"number":1,', 1), *LINES[1:]]), "line 1"),
    "one-key-more": (joined([FIRST.replace(b"{", b'{"a":1,', 1), *LINES[1:]]), "line 1"),
    "letters-that-are-not-escaped": (
        joined([line.replace(b"\\u00e9", "é".encode()) for line in LINES]),
        "line 5",
    ),
    "another-text": (joined([*LINES[:4], LINES[4].replace(b"Round", b"ROUND"), *LINES[5:]]), ""),
    "a-signature-in-capitals": (
        joined([*LINES[:-1], json.dumps({"signature": "AB" * 64}).encode()]),
        f"line {len(LINES)}",
    ),
    "another-kind": (joined([resigned(FIRST, kind="rumor")]), "no kind of notice"),
    "a-kind-that-is-no-text": (joined([resigned(FIRST, kind=[])]), "no kind of notice"),
    "it-says-nothing": (joined([resigned(FIRST, says={})]), "its keys must be windows"),
    "it-says-a-text": (joined([resigned(FIRST, says="")]), "no object"),
    "number-0": (joined([resigned(FIRST, number=0)]), "no round"),
    "number-true": (joined([resigned(FIRST, number=True)]), "no round"),
    "number-2": (joined([resigned(FIRST, number=2)]), "it has entry 2"),
    "time-of-a-day-that-is-none": (
        joined([resigned(FIRST, time="2026-02-30T00:00:00Z")]),
        "line 1",
    ),
    "time-without-zeros": (joined([resigned(FIRST, time="2026-2-03T00:00:00Z")]), "no time"),
    "an-earlier-time": (
        joined([*LINES[:6], resigned(LINES[6], time=SAID[0][2])]),
        "line 7: it has an earlier time",
    ),
}


@pytest.mark.parametrize("text, words", REFUSED.values(), ids=list(REFUSED))
def test_a_reader_refuses_and_names_the_line(
    tmp_path: pathlib.Path, text: bytes, words: str
) -> None:
    file = tmp_path / "notices.jsonl"
    file.write_bytes(text)
    with pytest.raises(NoticesFault, match="line [0-9]+: ") as fault:
        notices.read_notices(file, COMMITMENT)
    assert words in str(fault.value)
    assert str(fault.value).startswith(f"{file}: line ")


SAYS: dict[str, tuple[str, Any]] = {
    "a-window-that-ends-before-it-begins": (
        "timetable",
        {"windows": [{**WINDOW, "closes": WINDOW["opens"]}]},
    ),
    "two-windows-of-a-round": ("timetable", {"windows": [WINDOW, WINDOW]}),
    "a-window-of-round-0": ("timetable", {"windows": [{**WINDOW, "round": 0}]}),
    "windows-that-are-no-list": ("timetable", {"windows": WINDOW}),
    "an-announcement-without-a-text": ("announcement", {"key": "a", "text": ""}),
    "an-announcement-with-a-key-of-two-lines": ("announcement", {"key": "a\nb", "text": "a"}),
    "no-rule": ("increments", {"rules": []}),
    "no-rule-that-applies-always": ("increments", {"rules": [{"percent": 10, "until": 3}]}),
    "a-rule-after-one-that-applies-always": ("increments", {"rules": 2 * [{"percent": 10}]}),
    "a-percent-that-is-true": ("increments", {"rules": [{"percent": True}]}),
    "a-draw-without-words": ("draw", {"words": ""}),
    "a-draw-of-two-lines": ("draw", {"words": "a\nb"}),
    "a-digest-in-capitals": ("frozen", {"round": 1, "digest": "AB" * 32}),
    "an-increment-of-0": ("closed", {"round": 1, "digest": DIGEST, "increment": 0}),
    "no-increment": ("closed", {"round": 1, "digest": DIGEST, "increment": []}),
    "an-act-of-nobody": ("act", {"what": "pause", "who": ""}),
    "an-act-of-round-0": ("act", {"what": "pause", "who": "Ann", "round": 0}),
    "a-round-that-is-a-text": ("published", {"round": "1"}),
    "one-part-more": ("ended", {"round": 1, "why": "a"}),
}


@pytest.mark.parametrize("kind, says", SAYS.values(), ids=list(SAYS))
def test_nothing_is_signed_that_a_reader_refuses(kind: str, says: Any) -> None:
    with pytest.raises(ValueError):
        appended(b"", COMMITMENT, SECRET, kind, says, SAID[0][2])


def test_notices_of_another_key_are_refused() -> None:
    with pytest.raises(NoticesFault, match="line 1: it is not signed by the committed key"):
        notices_in(chain(SAID, OTHER), COMMITMENT)


def test_notices_of_another_commitment_are_refused() -> None:
    with pytest.raises(NoticesFault, match="line 1: it follows another line"):
        notices_in(WHOLE, commitment_of(SECRET, "22" * 32))


def test_each_changed_byte_is_refused() -> None:
    """But for the last line cut at its end, which is a shorter chain that is signed whole."""
    short = chain(SAID[:3])
    for place in range(len(short)):
        changed = bytearray(short)
        changed[place] ^= 1
        with pytest.raises(NoticesFault, match="line [1-3]: "):
            notices_in(bytes(changed), COMMITMENT)


# ---- Two copies

FORK = [*SAID[:6], ("act", {"what": "extend", "who": "Ann"}, SAID[6][2]), *SAID[7:]]
COPIES: dict[str, tuple[bytes, str]] = {
    "the-same": (WHOLE, notices.SAME),
    "without-later-entries": (joined(LINES[:5]), notices.SHORTER),
    "cut-within-an-entry": (WHOLE[:-40], notices.SHORTER),
    "nothing": (b"", notices.SHORTER),
    "with-an-entry-that-the-operator-signed": (
        appended(WHOLE, COMMITMENT, SECRET, *SAID[6]),
        notices.LONGER,
    ),
    "with-an-entry-of-another-key": (
        appended(WHOLE, COMMITMENT, OTHER, *SAID[6]),
        notices.UNPROVED,
    ),
    "with-a-word-at-the-end": (WHOLE + b"more\n", notices.UNPROVED),
    "with-an-entry-left-out": (joined(LINES[:3] + LINES[4:]), notices.UNPROVED),
    "with-the-first-entry-left-out": (joined(LINES[1:]), notices.UNPROVED),
    "with-two-entries-exchanged": (
        joined([LINES[1], LINES[0], *LINES[2:]]),
        notices.UNPROVED,
    ),
    "with-another-text": (WHOLE.replace(b"resume", b"extend"), notices.UNPROVED),
    "of-another-key": (chain(SAID, OTHER), notices.UNPROVED),
    "of-another-key-from-an-entry-on": (
        joined(LINES[:6]) + appended(joined(LINES[:6]), COMMITMENT, OTHER, *FORK[6])[-200:],
        notices.UNPROVED,
    ),
    "of-another-auction-of-the-same-key": (
        chain(FORK, commitment=commitment_of(SECRET, "22" * 32)),
        notices.UNPROVED,
    ),
    "of-another-auction-put-in-after-the-first-entries": (
        joined(LINES[:6])
        + joined(chain(FORK, commitment=commitment_of(SECRET, "22" * 32)).split(b"\n")[6:-1]),
        notices.UNPROVED,
    ),
    "of-two-chains": (chain(FORK), notices.TWO_CHAINS),
    "of-two-chains-from-the-first-entry-on": (
        chain([("act", {"what": "start", "who": "Ann"}, SAID[0][2])]),
        notices.TWO_CHAINS,
    ),
    "of-two-chains-and-damaged-later": (chain(FORK) + b"more", notices.TWO_CHAINS),
}


@pytest.mark.parametrize("copy, result", COPIES.values(), ids=list(COPIES))
def test_what_a_copy_proves(copy: bytes, result: str) -> None:
    found = notices.compared(WHOLE, copy, COMMITMENT)
    assert found.result == result
    assert ("proves nothing against the operator" in found.words) == (result == notices.UNPROVED)


def test_of_a_shorter_copy_it_says_when_the_next_entry_is_of() -> None:
    """Who saved the copy later than that knows that the operator gave an earlier time."""
    words = notices.compared(WHOLE, joined(LINES[:7]), COMMITMENT).words
    assert "the first 7 of 11 entries" in words
    assert "if it was saved after 2026-12-01T11:00:10Z, the time of entry 8 is false" in words


def test_two_chains_are_a_proof_in_either_order() -> None:
    assert notices.compared(chain(FORK), WHOLE, COMMITMENT).result == notices.TWO_CHAINS


def test_published_notices_that_are_no_chain_are_not_compared() -> None:
    with pytest.raises(NoticesFault, match="line 4"):
        notices.compared(joined(LINES[:3] + LINES[4:]), WHOLE, COMMITMENT)
