"""Nothing in the metrics is of a bidder, and nothing says whether someone has bid in the round."""
import dataclasses
import itertools
import re

import pytest

from auction.desk.counted import Counts
from auction.desk.metrics import LIVE, NO_FIGURES, Figures, shown, text_of

pytestmark = pytest.mark.early

BEFORE = Figures(
    {"200": 1_000, "404": 7, "409": 1}, {"bidder": 1}, 2_000, 5_000, 0.72, 1.0, 0, "open"
)
NOW = dataclasses.replace(BEFORE, codes={**BEFORE.codes, "429": 3, "502": 1}, connections=19_999)


def after_a_sheet(figures: Figures) -> Figures:
    """The figures once a sheet was accepted, and its receipt was asked for five times."""
    codes = dict(figures.codes)
    for code, count in {"200": 4, "404": 5, "409": 1}.items():
        codes[code] = codes.get(code, 0) + count
    free = figures.free - 4096 / 2**36  # of 64 GB
    return dataclasses.replace(figures, codes=codes, connections=figures.connections, free=free)


def test_a_sheet_changes_no_letter_of_the_text() -> None:
    """Unless it is the one in 10,000 that begins a new step of connections."""
    texts = {text_of(shown(figures, BEFORE)) for figures in (NOW, after_a_sheet(NOW))}
    assert len(texts) == 1


def test_the_figures_of_a_closed_round_are_shown_in_the_next_one() -> None:
    text = text_of(shown(NOW, after_a_sheet(BEFORE)))
    assert 'clock_auction_requests_total{code="200"} 1004' in text
    assert 'clock_auction_requests_total{code="404"} 12' in text


@pytest.mark.parametrize("code", sorted(LIVE))
def test_refusals_that_no_sheet_brings_are_shown_at_once(code: str) -> None:
    codes = {**NOW.codes, code: 99}
    text = text_of(shown(dataclasses.replace(NOW, codes=codes), BEFORE))
    assert f'clock_auction_requests_total{{code="{code}"}} 99' in text


@pytest.mark.parametrize(
    "code", ["200", "201", "204", "304", "400", "403", "404", "405", "409", "413"]
)
def test_other_statuses_are_those_of_the_last_closed_round(code: str) -> None:
    codes = {**NOW.codes, code: 99}
    text = text_of(shown(dataclasses.replace(NOW, codes=codes), BEFORE))
    assert "99" not in re.sub(r"0\.\d+", "", text)


@pytest.mark.parametrize(
    "connections, seen", [(0, 0), (9_999, 0), (10_000, 10_000), (999_999, 990_000)]
)
def test_connections_are_shown_in_steps(connections: int, seen: int) -> None:
    text = text_of(shown(dataclasses.replace(NOW, connections=connections), BEFORE))
    assert f"clock_auction_connections_used {seen}\n" in text


@pytest.mark.parametrize("free, seen", [(1.0, "1"), (0.999, "0.95"), (0.05, "0.05"), (0.049, "0")])
def test_free_space_is_shown_in_twentieths_of_the_disk(free: float, seen: str) -> None:
    text = text_of(shown(dataclasses.replace(NOW, free=free), BEFORE))
    assert f"clock_auction_journal_disk_free_ratio {seen}\n" in text


def test_before_the_first_closing_no_request_is_counted_but_refusals() -> None:
    text = text_of(shown(NOW, NO_FIGURES))
    found = re.findall(r'requests_total\{code="(\d+)"\}', text)
    assert set(found) == LIVE


def test_a_doubt_is_counted_without_its_reason() -> None:
    """`nobody has a sheet in force` would say that nobody has bid."""
    text = text_of(dataclasses.replace(NOW, doubts=2, state="held"))
    assert "clock_auction_doubts 2\n" in text
    assert "sheet" not in text.lower()


def test_each_line_has_the_form_that_prometheus_reads() -> None:
    """Each metric has its help and type before its values, once."""
    lines = text_of(shown(NOW, BEFORE)).splitlines()
    value = re.compile(
        r'(clock_auction_[a-z_]+)(\{[a-z]+="[a-z_0-9]+"\})? -?\d+(\.\d+)?(e[+-]\d+)?'
    )
    names = []
    for line in lines:
        if line.startswith("# HELP "):
            names.append(line.split()[2])
        elif not line.startswith(f"# TYPE {names[-1]} "):
            found = value.fullmatch(line)
            assert found and found[1] == names[-1], line
    assert len(names) == len(set(names)) > 8


@pytest.mark.parametrize(
    "line, code, kind",
    [
        (b"429 bidder - -", "429", "bidder"),
        (b"429 network - -", "429", "network"),
        (b"429 bidder REJECTED -", "429", "bidder_at_once"),
        (b"429 network REJECTED -", "429", "network_at_once"),
        (b"200 bidder - server", "200", None),
    ],
)
def test_a_line_is_counted(line: bytes, code: str, kind: str | None) -> None:
    counts = Counts()
    counts.take(line)
    assert dict(counts.codes) == {code: 1}
    assert dict(counts.too_often) == ({kind: 1} if kind else {})
    assert counts.connections == (1 if b"server" in line else 0)


@pytest.mark.parametrize(
    "line", [b"", b"429", b"bidder - -", b"4290 bidder - -", b"429 bidder - - x", b"\xff\xfe - - -"]
)
def test_another_line_says_nothing(line: bytes) -> None:
    counts = Counts()
    counts.take(line)
    assert counts == Counts()


def test_no_figure_but_these_is_shown() -> None:
    """A new figure must be thought about: may a sheet change it?"""
    names = [field.name for field in dataclasses.fields(Figures)]
    live = ["too_often", "looked", "doubts", "state", "log_free", "signs"]
    rounded = ["connections", "free"]
    closed = ["codes", "journal"]
    assert sorted(names) == sorted([*live, *rounded, *closed])


def test_every_pair_of_figures_that_differ_by_sheets_has_one_text() -> None:
    """Of 400 pairs: what a sheet changes is never seen before the closing."""
    for count, sheets in itertools.product(range(20), range(20)):
        codes = {"200": count, "429": 2}
        some = dataclasses.replace(NOW, codes=codes)
        more = dataclasses.replace(NOW, codes={**codes, "200": count + sheets, "404": sheets})
        assert text_of(shown(some, BEFORE)) == text_of(shown(more, BEFORE))
