"""Each file that the conductor writes fits its schema, and so does each timetable that it takes."""
import dataclasses
import json
import pathlib
from collections import defaultdict
from typing import Any

import pytest

from auction.conductor import commands
from auction.conductor.report import State
from auction.conductor.settings import Settings
from auction.explain.schemas import schema
from auction.receipts import Sheets, Signer
from tests.lib import timetables
from tests.lib.conducted import ConductedAuction, conducted
from tests.schemas.described import validator

CONDUCTOR, PUBLIC = "conductor.schema.json", "public.schema.json"
WINDOWS = [(30, 60), (120, 150), (210, 240)]
# The files of a folder, each with its schema and the name there.
FILES = [
    ("conductor.json", CONDUCTOR, "settings"),
    ("operator/conductor.json", CONDUCTOR, "report"),
    ("public/commitment.json", PUBLIC, "commitment"),
    ("public/timetable.json", PUBLIC, "timetable"),
    ("public/announcements.json", PUBLIC, "announcements"),
    ("public/winners.json", PUBLIC, "winners"),
    ("public/rounds/*.json", PUBLIC, "published_round"),
    ("receipts/*/*.json", PUBLIC, "receipt"),
]
# How many different contents of each file there are at the least.
COUNTS = {"report": 6, "timetable": 5, "announcements": 4, "published_round": 3, "receipt": 6}

Texts = dict[str, set[str]]


def note(auction: ConductedAuction, found: Texts) -> None:
    """Notes the content of each file that exists now."""
    for pattern, _, name in FILES:
        found[name].update(file.read_text() for file in auction.folder.glob(pattern))


def sign(auction: ConductedAuction) -> None:
    """Signs all sheets, as the service of receipts does."""
    folder, context = auction.folder / "receipts", auction.context()
    folder.mkdir()
    key = (auction.folder / "kept/receipts.pem").read_bytes()
    signer = Signer(Sheets(context.settings.journal, context.setup), key, folder)
    signer.look()
    signer.show()


@pytest.fixture(scope="module")
def texts(program: pathlib.Path) -> Texts:
    """What the conductor wrote into its files, by name, in a short auction with a pause."""
    found: Texts = defaultdict(set)
    with conducted(program, WINDOWS) as auction:
        for until in (State.BEFORE, State.OPEN, State.DRAINING, State.CLOSED):
            auction.play(until)
            note(auction, found)
        commands.pause(auction.context(), "A fire alarm.")
        auction.look()
        note(auction, found)
        commands.resume(auction.context(), 0)
        auction.play()
        commands.winners(auction.context())
        sign(auction)
        note(auction, found)
    return found


@pytest.mark.parametrize(("file", "name"), [(file, name) for _, file, name in FILES])
def test_file_fits_its_schema(texts: Texts, file: str, name: str) -> None:
    fits = validator(file, f"/$defs/{name}").is_valid
    assert [text for text in texts[name] if not fits(json.loads(text))] == []
    assert len(texts[name]) >= COUNTS.get(name, 1)


@pytest.mark.parametrize(("file", "name"), [(file, name) for _, file, name in FILES])
def test_file_with_another_key_does_not_fit(texts: Texts, file: str, name: str) -> None:
    fits = validator(file, f"/$defs/{name}").is_valid
    for value in map(json.loads, texts[name]):
        entries = value if isinstance(value, list) else [value]
        for entry in entries:
            entry["other"] = 1
        assert not entries or not fits(value)


def test_settings_have_the_keys_that_the_conductor_reads() -> None:
    keys = {field.name for field in dataclasses.fields(Settings)}
    assert set(schema(CONDUCTOR, "/$defs/settings")["properties"]) == keys


def test_states_of_the_report_are_those_of_the_conductor() -> None:
    states = schema(CONDUCTOR, "/$defs/report")["properties"]["state"]["enum"]
    assert states == [state.value for state in State]


TIMETABLES: list[tuple[str, Any, bool]] = [
    ("taken", timetables.WHOLE, True),
    *[(one.words, one.value, one.is_beyond_schema) for one in timetables.REFUSED],
]


@pytest.mark.early
@pytest.mark.parametrize(
    ("value", "fits"), [row[1:] for row in TIMETABLES], ids=[row[0] for row in TIMETABLES]
)
def test_timetable_fits_exactly_if_a_schema_can_say_so(value: Any, fits: bool) -> None:
    assert validator("timetable.schema.json").is_valid(value) == fits


def test_timetables_are_as_many_as_the_conductor_is_tried_with() -> None:
    assert len(TIMETABLES) >= 26
