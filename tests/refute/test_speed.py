"""Tries to find a closing in which the two procedures differ, or the fast one works too much.

`processing.rs`, a program of this test's own, draws requests, and processes them by both procedures
of the crates. It prints what they count. Nothing is proved for it. The bounds are calculated here.
"""
import collections
import dataclasses
import pathlib
import shutil
import subprocess

import pytest

from tests.lib import setups
from tests.lib.http import compact
from tests.lib.paths import PATHS, TOP

pytestmark = [pytest.mark.early, pytest.mark.needs("rt"), pytest.mark.slow]

SOURCE = TOP / "tests/refute/processing.rs"
CRATE, SECONDS = "drawn_requests", 580
PRODUCTS, BIDDERS, SUPPLY = 6, 8, 11
AUCTIONS = 60

# A line of the queue that has both the requests and their counter, and ways to read without a count
# in it, each with what it names.
COUNTED = "        count = with_lines_for(count, change);\n"
WAYS = {
    "let _second = Requests::counted(&clock_terms::Changes::new(alloc));": "`counted` is private",
    "let _third = Reads { count: 0 };": "field `count` of struct `Reads` is private",
    "reads.count = 0;": "field `count` of struct `Reads` is private",
    "let _fourth = reads.clone();": "the method `clone` exists for `Reads`, but",
    "let _list = requests.list;": "field `list` of struct `Requests` is private",
}


@dataclasses.dataclass
class Ended:
    """What a procedure counted, and the demands after the round."""

    applications: int
    tests: int
    demands: list[int] = dataclasses.field(default_factory=list)


@dataclasses.dataclass
class Drawn:
    """An auction's requests, each of a bidder, a product, and a number of blocks; how each
    procedure ended, and how often the fast one read a request.
    """

    requests: list[tuple[int, int, int]] = dataclasses.field(default_factory=list)
    ended: dict[str, Ended] = dataclasses.field(default_factory=dict)
    reads: int = 0

    def most_of_one(self) -> int:
        """The most requests of one bidder or of one product."""
        bidders = collections.Counter(one for one, _, _ in self.requests)
        products = collections.Counter(one for _, one, _ in self.requests)
        return max([0, *bidders.values(), *products.values()])

    def is_within_bound(self, name: str) -> bool:
        """One test for each request, and at most two for each application."""
        ended = self.ended[name]
        most = min(2, self.most_of_one())
        return ended.tests <= len(self.requests) + ended.applications * most

    def is_within_reads(self) -> bool:
        """Three reads for each request, and three for each application."""
        applications = self.ended["queue"].applications
        return self.reads <= 3 * (len(self.requests) + applications)

    def is_within_blocks(self) -> bool:
        """At most one application for each block that is asked for."""
        return self.ended["queue"].applications <= sum(blocks for _, _, blocks in self.requests)

    def has_one_result(self) -> bool:
        queue, plain = self.ended["queue"], self.ended["list"]
        return (queue.applications, queue.demands) == (plain.applications, plain.demands)


def write(folder: pathlib.Path) -> pathlib.Path:
    """Writes a repository with the crates and the program. Returns the program's folder."""
    unused = shutil.ignore_patterns("out", "must-fail")
    shutil.copytree(TOP / "crates", folder / "crates", ignore=unused)
    crate = folder / "crates" / CRATE
    for part in ("specs", "proofs"):
        (crate / part).mkdir(parents=True)
        (crate / part / "Lib.antt").touch()
    (crate / "src").mkdir()
    shutil.copy(SOURCE, crate / "src/main.rt")
    lines = SOURCE.read_text().splitlines()
    used = next(line.partition("Uses:")[2] for line in lines if line.startswith("//! Uses:"))
    known = (TOP / "crates.txt").read_text()
    (folder / "crates.txt").write_text(f"{known}{CRATE}:{used}\n")
    return crate


def document() -> bytes:
    products = [setups.product(f"P{n}", SUPPLY, units=1 + n % 3) for n in range(PRODUCTS)]
    bidders = [setups.bidder(f"B{n}", f"{n:020d}", 10**6) for n in range(BIDDERS)]
    return compact(setups.setup(products, bidders, 90))


def auctions_in(text: str) -> list[Drawn]:
    auctions: list[Drawn] = []
    for line in text.splitlines():
        kind, *numbers = line.split()
        values = list(map(int, numbers))
        if kind == "auction":
            auctions.append(Drawn())
        elif kind == "request":
            auctions[-1].requests.append((values[0], values[1], values[2]))
        elif kind == "reads":
            [auctions[-1].reads] = values
        elif kind == "demand":
            list(auctions[-1].ended.values())[-1].demands.append(values[0])
        else:
            auctions[-1].ended[kind] = Ended(*values)
    return auctions


def tried(crate: pathlib.Path) -> subprocess.CompletedProcess[bytes]:
    """Compiles the program and runs it, unproved."""
    return subprocess.run(
        ["rt", "try"],
        cwd=crate,
        env={"PATH": PATHS, "HOME": str(crate)},
        input=document(),
        capture_output=True,
        timeout=SECONDS,
    )


@pytest.fixture(scope="module")
def drawn(tmp_path_factory: pytest.TempPathFactory) -> list[Drawn]:
    """The auctions that the program draws and processes."""
    done = tried(write(tmp_path_factory.mktemp("speed")))
    assert done.returncode == 0, done.stderr.decode()[-2000:]
    return auctions_in(done.stdout.decode())


@pytest.mark.timeout(SECONDS)
def test_auctions_are_drawn_with_many_requests_and_with_one_each(drawn: list[Drawn]) -> None:
    assert len(drawn) == AUCTIONS
    assert all(len(one.ended["list"].demands) == PRODUCTS * BIDDERS for one in drawn)
    assert {min(2, one.most_of_one()) for one in drawn} == {1, 2}
    assert all(one.ended["queue"].applications for one in drawn if one.most_of_one() > 1)


def test_both_procedures_end_alike(drawn: list[Drawn]) -> None:
    assert [place for place, one in enumerate(drawn) if not one.has_one_result()] == []


def test_the_queue_stays_within_its_bound(drawn: list[Drawn]) -> None:
    assert [place for place, one in enumerate(drawn) if not one.is_within_bound("queue")] == []


def test_the_queue_reads_a_request_at_most_three_times_for_each_request_and_application(
    drawn: list[Drawn],
) -> None:
    assert [place for place, one in enumerate(drawn) if not one.is_within_reads()] == []
    assert all(one.reads >= len(one.requests) for one in drawn)


def test_each_application_takes_a_block(drawn: list[Drawn]) -> None:
    assert [place for place, one in enumerate(drawn) if not one.is_within_blocks()] == []


@pytest.mark.timeout(SECONDS)
def test_the_queue_cannot_read_a_request_without_a_count(tmp_path: pathlib.Path) -> None:
    """Each way to a second counter, or to the list, is refused by the compiler at its line."""
    crate = write(tmp_path)
    source = crate.parent / "clock_queue/src/queue.rt"
    before, line, after = source.read_text().partition(COUNTED)
    assert line
    first = before.count("\n") + 2
    source.write_text(before + line + "".join(f"{way}\n" for way in WAYS) + after)
    refused = tried(crate).stderr.decode()
    for number, (way, words) in enumerate(WAYS.items(), first):
        assert any(f"queue.rt:{number}:" in one and words in one for one in refused.splitlines()), (
            way,
            refused,
        )


# ---- Planted mistakes


def test_a_planted_slow_procedure_is_found(drawn: list[Drawn]) -> None:
    """The list that is searched again after each application is over the bound."""
    many = [one for one in drawn if one.most_of_one() > 1]
    assert many and not any(one.is_within_bound("list") for one in many)


def test_a_planted_difference_is_found(drawn: list[Drawn]) -> None:
    one = drawn[0]
    queue = one.ended["queue"]
    changed = dataclasses.replace(queue, demands=[queue.demands[0] + 1, *queue.demands[1:]])
    assert not Drawn(one.requests, {**one.ended, "queue": changed}).has_one_result()
