"""Public files: each version has a time of its own, and one of another form is named."""
import json
import pathlib
from typing import Any

import pytest

from auction.conductor import commands
from auction.conductor.public import PublicFiles
from auction.conductor.report import State
from auction.conductor.settings import Folders
from auction.conductor.stored import Damaged
from tests.conductor.conftest import Conduct
from tests.lib.conducted import ConductedAuction
from tests.lib.disk import killed_at

DAMAGED = {
    "no JSON": b"{",
    "no object": b"[]",
    "a deep list": b"[" * 100_000,
    "no products": b'{"ended":false}',
    "a product that is a number": b'{"ended":false,"products":[1]}',
    "a demand in words": b'{"ended":false,"products":[{"demand":"3","next":1,"posted":1}]}',
    "an end that is a number": b'{"ended":0,"products":[]}',
}


def version(path: pathlib.Path) -> tuple[int, int]:
    """By what nginx knows a version of a file: its time in seconds, and its length."""
    found = path.stat()
    return int(found.st_mtime), found.st_size


@pytest.mark.early
def test_killed_before_each_step_a_new_version_has_a_new_time(tmp_path: pathlib.Path) -> None:
    path, step, was_killed = tmp_path / "page.json", 0, True
    while was_killed:
        step += 1
        public = PublicFiles(Folders(tmp_path))
        public.put(path, {"round": 1})
        before, text = version(path), path.read_bytes()
        with killed_at(step) as disk:
            public.put(path, {"round": 2})
        was_killed = disk.has_killed
        assert (path.read_bytes() == text) == (version(path) == before)
        path.unlink()
    assert step > 5


@pytest.mark.parametrize("text", DAMAGED.values(), ids=DAMAGED)
def test_published_results_of_another_form_are_named_and_end_nothing(
    conduct: Conduct, text: bytes
) -> None:
    auction = conduct()
    auction.play(State.CLOSED)
    auction.play(State.BEFORE)
    path = auction.folder / "public/rounds/1.json"
    right = path.read_bytes()
    path.write_bytes(text)
    auction.clock.sleep(60)
    assert auction.look() is State.GONE
    assert f"{path} is damaged" in auction.words
    path.write_bytes(right)
    auction.play()


NAMES = ("public/announcements.json", "state/plan.json")


@pytest.mark.parametrize("name", NAMES)
def test_a_file_of_another_form_is_named_and_ends_nothing(conduct: Conduct, name: str) -> None:
    auction = conduct()
    auction.play(State.OPEN)
    right = (auction.folder / name).read_bytes()
    for text in (b"{", b"[]", b"{}", b'{"announcements":[{"key":1}],"windows":{"1":7}}'):
        (auction.folder / name).write_bytes(text)
        assert auction.look() is State.GONE
        assert f"{auction.folder / name} is damaged" in auction.words
    (auction.folder / name).write_bytes(right)
    assert auction.look() is State.OPEN


# ---- Winners


@pytest.fixture
def ended(conduct: Conduct) -> ConductedAuction:
    auction = conduct([(60, 90)], rounds=1)
    auction.play()
    return auction


def test_results_of_another_form_publish_no_winners_and_are_named(
    ended: ConductedAuction,
) -> None:
    path = ended.folder / "kept/results-1.json"
    path.write_text(json.dumps({"bidders": [{"name": "X"}], "ended": True, "round": 1}))
    with pytest.raises(Damaged, match="results-1.json is damaged"):
        commands.winners(ended.context())
    assert not (ended.folder / "public/winners.json").exists()
    assert ended.look() is State.ENDED


def test_winners_killed_before_each_step_are_announced_once_and_published(
    conduct: Conduct,
) -> None:
    step, was_killed = 0, True
    while was_killed:
        step += 1
        ended: Any = conduct([(60, 90)], rounds=1)
        ended.play()
        was_killed = ended.obey(commands.winners, kill_at=step)
        ended.look()
        is_published = (ended.folder / "public/winners.json").exists()
        assert ended.announced("What each bidder has won") == is_published
        assert is_published or was_killed
    assert step > 10
