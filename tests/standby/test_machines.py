"""A standby takes over from a machine that is lost, at three moments, and from one that still runs.

The machines have a network each, with server, nginx, receipts, and conductor. Bidders' programs run
on all the time. The auction ends on the second machine.
"""
import json
import os
import pathlib
import re
import sys
from collections.abc import Iterator
from typing import NamedTuple

import pytest

from tests.lib.conducted import small_setup
from tests.lib.folders import open_folder
from tests.lib.paths import AUCTION, auction
from tests.standby.machines import FOLDER, HOST, SERVICE, WORKER, Machine, World, until

pytestmark = [
    pytest.mark.needs("nginx", "ip", "nsenter", "unshare"),
    pytest.mark.root,
    pytest.mark.slow,
]
SETTINGS = {"drain": 0, "publish": 12, "between": 0, "notice": 0, "missed": 100}
PLACES = ["window", "curtain", "pause", "alive"]


class Ended(NamedTuple):
    """An auction that has ended on the second machine, and what the first one had published."""

    world: World
    place: str
    announced: list[dict[str, object]]
    commitment: bytes


def begin(world: World, program: pathlib.Path, openapi: pathlib.Path) -> None:
    """Starts the auction on the first machine, its copy to the second one, and the bidders."""
    first = world.first
    setup = first.place / "setup.json"
    setup.write_text(json.dumps(small_setup()))
    words = ["--setup", "/srv/setup.json", "--host", HOST, "--user", WORKER]
    first.auction("init", FOLDER, *words, "--journal", "auction.journal")
    settings = first.page("conductor.json")
    (first.folder / "conductor.json").write_text(json.dumps({**settings, **SETTINGS}))
    configuration = (first.folder / "nginx.conf").read_text()
    without = re.sub(r"\n *listen \[::\][^\n]*", "", configuration)
    (first.folder / "nginx.conf").write_text(without)
    first.serve(program)
    copies = [sys.executable, AUCTION, "standby", FOLDER, "10.105.2.2", "--every", "0.2"]
    first.start("standby", *copies, *world.shell())
    until("there is a copy", lambda: (world.second.folder / "standby.json").exists())
    world.bid("X", [140, 105])
    world.bid("Y", [140])


def is_copied(world: World) -> bool:
    """Whether the second machine has the journal and the plan of the first one."""
    names = ("auction.journal", "state/plan.json", "public/timetable.json")
    pairs = [(world.first.folder / name, world.second.folder / name) for name in names]
    return all(copy.exists() and copy.read_bytes() == file.read_bytes() for file, copy in pairs)


def bid_in_round_1(world: World) -> None:
    """The window of round 1 opens, and both bidders' sheets are accepted and copied."""
    world.first.plan()
    for name in "XY":
        until(f"a sheet of {name}", lambda: "sheet" in world.said(name))
        until(f"a receipt of {name}", lambda: "receipt of sheet 1" in world.said(name))
    world.first.wait_for_state("open", 1)


def come_to(world: World, place: str) -> None:
    """Brings the auction to a moment of round 1, which the second machine has copied."""
    bid_in_round_1(world)
    if place == "curtain":
        world.first.end_window(1)
        world.first.wait_for_state("curtain", 2)
    elif place == "pause":
        world.first.auction("pause", FOLDER, "A fire alarm.")
        world.first.wait_for_state("paused", 1)
    until("it is copied", lambda: is_copied(world))


def take_over(world: World, place: str) -> None:
    """The second machine takes over, from a machine that is lost or from one that runs."""
    second = world.second
    if place == "alive":
        second.auction("take-over", FOLDER, "--first", "10.105.1.2", *world.shell())
    else:
        world.first.lose()
        is_off = ["--is-off", "--at", f"{SERVICE}:8443", "--at", "10.105.1.2:2222"]
        second.auction("take-over", FOLDER, *is_off, says="it is off\n")


def end_on(second: Machine, world: World, place: str) -> None:
    """Plays the auction to its end on the second machine."""
    if place == "pause":
        second.wait_for_state("paused", 1)
        second.auction("resume", FOLDER, "0.1")
    if place != "curtain":
        second.wait_for_state("open", 1)
        second.end_window(1)
    until("round 1 is published", (second.folder / "public/rounds/1.json").exists)
    second.plan()
    for name in "XY":
        until(f"round 2 of {name}", lambda: '"round": 2}' in world.said(name))
    second.wait_for_state("open", 2)
    second.end_window(2)
    until("round 2 is published", (second.folder / "public/rounds/2.json").exists)
    for child in world.bidders:
        assert child.wait(60) == 0


@pytest.fixture(scope="module", params=PLACES)
def ended(
    program: pathlib.Path, openapi: pathlib.Path, request: pytest.FixtureRequest
) -> Iterator[Ended]:
    with open_folder() as folder:
        world = World(folder)
        try:
            begin(world, program, openapi)
            come_to(world, request.param)
            announced = world.first.page("public/announcements.json")["announcements"]
            commitment = (world.first.folder / "public/commitment.json").read_bytes()
            take_over(world, request.param)
            world.second.serve(program)
            world.move_to(2)
            end_on(world.second, world, request.param)
            yield Ended(world, request.param, announced, commitment)
        except AssertionError:
            print(world.words())
            raise
        finally:
            world.stop()


def test_it_goes_on_with_the_same_chain_key_and_announcements(ended: Ended) -> None:
    second = ended.world.second
    assert (second.folder / "public/commitment.json").read_bytes() == ended.commitment
    made = second.page("public/announcements.json")["announcements"]
    assert made[: len(ended.announced)] == ended.announced
    assert [one["number"] for one in made] == list(range(1, len(made) + 1))
    assert len({one["key"] for one in made}) == len(made)


def test_bidders_programs_notice_nothing_but_an_outage(ended: Ended) -> None:
    for name in "XY":
        said = ended.world.said(name)
        assert said.count("slip") == 2 and f"won {name}" in said
        for line in ended.world.errors(name):
            expected = (
                "no reply to",
                "The round is closing",
                "Waiting to send the sheet",
                "no receipt",
                "refusal ",
                "no signed refusal",
            )
            assert line.startswith(expected), line


def test_verify_and_receipts_notice_nothing(ended: Ended) -> None:
    folder = ended.world.second.folder
    files = [folder / name for name in ("setup.json", "auction.journal")]
    record = ended.world.place / "record"
    made = auction("record", *files, folder / "public", record)
    assert made.returncode == 0, made.stderr
    verified = auction("verify", record / "setup.json", record / "auction.journal", record)
    assert verified.returncode == 0, verified.stdout + verified.stderr
    for name in "XY":
        receipts = ended.world.place / name / "receipts.jsonl"
        checked = auction("check-receipts", receipts, files[1], "--setup", files[0])
        assert checked.returncode == 0, checked.stdout + checked.stderr


def test_the_first_machine_stays_shut(ended: Ended) -> None:
    if ended.place != "alive":
        return
    first = ended.world.first
    assert os.listdir(first.folder / "gate") == []
    assert "this machine is fenced" in first.auction("extend", FOLDER, "5", status=1)
    listening = first.run("ss", "-Htln", "( sport = 8105 or sport = 8443 )")
    assert not listening
