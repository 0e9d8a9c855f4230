"""What conductor.json may have."""
import json
import pathlib

import pytest

from auction.conductor.settings import MOST_DRAIN, Settings, SettingsFault
from auction.verify.announced import LATE

pytestmark = pytest.mark.early


def read(folder: pathlib.Path, **changes: object) -> Settings:
    """The settings of a folder whose conductor.json has these values."""
    paths = {"setup": "setup.json", "token": "token", "journal": "auction.journal"}
    (folder / "conductor.json").write_text(json.dumps({"url": "http://a", **paths, **changes}))
    return Settings.read(folder)


@pytest.mark.parametrize("drain", [0, 10, 60])
def test_a_drain_of_up_to_a_minute_is_taken(tmp_path: pathlib.Path, drain: int) -> None:
    assert read(tmp_path, drain=drain, publish=0).drain == drain


def test_a_longer_drain_is_refused(tmp_path: pathlib.Path) -> None:
    """A sheet that came in it would count as one of after its window."""
    with pytest.raises(SettingsFault, match="drain is at most 60"):
        read(tmp_path, drain=61, publish=0)


def test_no_sheet_of_a_drain_is_taken_for_a_late_one() -> None:
    assert MOST_DRAIN <= LATE


@pytest.mark.parametrize("name", ["port", "drain", "publish", "between", "notice", "missed"])
@pytest.mark.parametrize("value", [-1, 1.5, "10", True])
def test_a_time_is_a_whole_number(tmp_path: pathlib.Path, name: str, value: object) -> None:
    with pytest.raises(SettingsFault, match=f"{name} must be a whole number, 0 or more"):
        read(tmp_path, **{name: value})


def test_a_curtain_that_lifts_before_the_closing_may_end_is_refused(tmp_path: pathlib.Path) -> None:
    with pytest.raises(SettingsFault, match="publish must be 0, or hold drain"):
        read(tmp_path, drain=20, publish=31)


def test_an_unknown_key_is_refused(tmp_path: pathlib.Path) -> None:
    with pytest.raises(SettingsFault, match="unknown key drains"):
        read(tmp_path, drains=10)
