"""When receipts appear, with a clock of its own: at whole seconds, and never later because others
sent more sheets.
"""
import dataclasses
import pathlib
import sys
from collections.abc import Callable, Iterator

import pytest

from auction import receipts
from auction.formats.setup import Setup
from auction.formats.signatures import new_key
from auction.receipts import Sheets, Signer, run, seconds_to_wait
from tests.lib import setups
from tests.lib.http import compact, text_of
from tests.lib.journals import journal_of

pytestmark = pytest.mark.early
COUNTS = (0, 1, 20, 60, 120, 240)  # sheets of rivals, just before the bidder's own
SENT = (0.0, 0.25, 0.999)  # when in a second the sheets come
BEGIN = 1000.0
SIGNING = 0.002  # seconds for each receipt: some twenty times what it takes
KEY = new_key()


class End(BaseException):
    """Ends the service, which runs for good."""


@dataclasses.dataclass
class Clock:
    """A clock that moves only if someone waits, or signs. `waited` is called after each wait."""

    now: float
    waited: Callable[[], None]

    def time(self) -> float:
        return self.now

    def sleep(self, seconds: float, /) -> None:
        self.now += seconds
        self.waited()


class Trial:
    """The service, with a journal that gets sheets at a moment."""

    def __init__(self, folder: pathlib.Path, count: int, sent: float) -> None:
        bidders = [setups.bidder(name, name * 16, 9) for name in "XY"]
        value = setups.setup([setups.product("A", 9)], bidders)
        (folder / "setup.json").write_bytes(compact(value))
        self.setup, self.journal = Setup.read(folder / "setup.json"), folder / "auction.journal"
        body = compact({"bids": [], "round": 1})
        texts = [text_of("PUT /v1/me/bids", name * 16, body) for name in "Y" * count + "X"]
        self.later = journal_of(self.setup.document, texts)
        self.journal.write_bytes(journal_of(self.setup.document, []))
        (folder / "receipts").mkdir()
        self.folder, self.count, self.sent = folder / "receipts", count, BEGIN + sent
        self.appeared: dict[str, float] = {}
        self.clock = Clock(BEGIN, self.send)

    def send(self) -> None:
        """Adds the sheets to the journal, when it is time."""
        if self.clock.now >= self.sent:
            self.journal.write_bytes(self.later)

    def look(self) -> None:
        """Notes which receipts have appeared. Ends the service if these are all."""
        for file in self.folder.glob("[!.]*/*.json"):
            self.appeared.setdefault(f"{file.parent.name}/{file.name}", self.clock.now)
        if len(self.appeared) > self.count or self.clock.now > BEGIN + 60:
            raise End


class Watched(Signer):
    """A signer whose signatures take time, and who is watched."""

    trial: Trial

    def look(self) -> None:
        super().look()
        self.trial.clock.now += SIGNING * self.unseen

    def show(self) -> int:
        count = super().show()
        self.trial.look()
        return count


def result(folder: pathlib.Path, count: int, sent: float) -> tuple[float, set[float]]:
    """When the bidder's receipt appeared, and when any did."""
    trial = Trial(folder, count, sent)
    signer = Watched(Sheets(trial.journal, trial.setup), KEY, trial.folder)
    signer.trial = trial
    with pytest.raises(End):
        run(signer, lambda words: pytest.fail(words), clock=trial.clock)
    return trial.appeared["X/1-1.json"], set(trial.appeared.values())


@pytest.fixture
def folders(tmp_path: pathlib.Path) -> Iterator[pathlib.Path]:
    """New folders."""

    def made() -> Iterator[pathlib.Path]:
        for number in range(100):
            folder = tmp_path / str(number)
            folder.mkdir()
            yield folder

    return made()


def moments(folders: Iterator[pathlib.Path], sent: float) -> list[float]:
    """When the bidder's receipt appears, by how many sheets others sent just before."""
    return [result(next(folders), count, sent)[0] for count in COUNTS]


@pytest.mark.parametrize("sent", SENT)
def test_the_moment_is_the_same_however_many_sheets_others_sent(
    folders: Iterator[pathlib.Path], sent: float
) -> None:
    assert len(set(moments(folders, sent))) == 1


@pytest.mark.parametrize("sent", SENT)
def test_receipts_appear_at_the_second_whole_second_after_their_sheet_at_the_latest(
    folders: Iterator[pathlib.Path], sent: float
) -> None:
    appeared, all_moments = result(next(folders), 240, sent)
    assert appeared == int(appeared)
    assert appeared - (BEGIN + sent) <= 2
    assert all_moments == {appeared}, "all at once"


@pytest.mark.parametrize(
    ("now", "seconds"), [(0.0, 1.0), (7.25, 0.75), (7.75, 0.25), (1e9 + 0.5, 0.5)]
)
def test_receipts_appear_at_the_next_whole_second(now: float, seconds: float) -> None:
    assert seconds_to_wait(now) == seconds


@pytest.mark.parametrize("step", [-3600.0, -0.3, 0.4, 3600.0])
def test_a_clock_that_is_set_delays_no_receipt_by_more_than_a_second(
    folders: Iterator[pathlib.Path], step: float
) -> None:
    """The service never waits for a moment that it has chosen before."""
    assert 0 < seconds_to_wait(BEGIN + step) <= 1
    assert result(next(folders), 1, 0.25)[0] - BEGIN <= 3


# ---- Mistakes, which the tests above must find


def no_wait(monkeypatch: pytest.MonkeyPatch) -> None:
    """Receipts appear as soon as they are signed."""
    monkeypatch.setattr(receipts, "wait", lambda clock: clock.sleep(0.001))


def a_second_after_signing(monkeypatch: pytest.MonkeyPatch) -> None:
    monkeypatch.setattr(receipts, "seconds_to_wait", lambda now: 1.0)


def a_process_for_each_signature(monkeypatch: pytest.MonkeyPatch) -> None:
    monkeypatch.setattr(sys.modules[__name__], "SIGNING", 0.009)


def one_after_the_other(monkeypatch: pytest.MonkeyPatch) -> None:
    """At most 50 receipts a second appear."""
    look = Signer.look

    def some(signer: Signer) -> None:
        signer.sheets.read_on()
        rest = signer.sheets.fresh[50:]
        del signer.sheets.fresh[50:]
        look(signer)
        signer.sheets.fresh += rest

    monkeypatch.setattr(Signer, "look", some)


MISTAKES = (no_wait, a_second_after_signing, a_process_for_each_signature, one_after_the_other)


@pytest.mark.parametrize("mistake", MISTAKES, ids=lambda mistake: mistake.__name__)
def test_a_planted_mistake_shows(
    folders: Iterator[pathlib.Path],
    monkeypatch: pytest.MonkeyPatch,
    mistake: Callable[[pytest.MonkeyPatch], None],
) -> None:
    mistake(monkeypatch)
    assert len(set(moments(folders, 0.25))) > 1
