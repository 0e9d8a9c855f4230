"""The manners of `auction`: help and version, and what it says of files that are not as they must
be.
"""
import json
import os
import pathlib
import re
import shutil
import subprocess
from collections.abc import Iterator

import pytest

from auction.cli import COMMANDS
from tests.lib.folders import open_folder
from tests.lib.paths import CHANGING, EXAMPLES, TOP

pytestmark = pytest.mark.early

SETUP = EXAMPLES / "two_products.json"
# The words of each command, with the file that is spoiled at its place.
CALLS = {
    "init SETUP": "init new --setup {}",
    "init PRODUCTS": "init new --products {} --bidders bidders.csv",
    "init BIDDERS": "init new --products products.csv --bidders {}",
    "commit SETUP": "commit {} kept public",
    "maps SETUP": "maps {}",
    "plan FILE": "plan folder {}",
    "check FILE": "check folder {}",
    "close TOKENFILE": "close http://127.0.0.1:9 {} setup.json journal kept 10",
    "close SETUP": "close http://127.0.0.1:9 token {} journal kept 10",
    "receipts SETUP": "receipts --once {} journal kept public",
    "record SETUP": "record {} journal public record",
    "record JOURNAL": "record setup.json {} public record",
    "verify SETUP": "verify {} journal public",
    "verify JOURNAL": "verify setup.json {} public",
    "check-receipts RECEIPTS": "check-receipts {} journal",
    "recount SETUP": "recount {} journal",
    "recount JOURNAL": "recount setup.json {}",
    "explain FILE": "explain setup {}",
}
# These print the lines that docs/formats.md fixes, or that name no file.
WITHOUT_NAME = (
    "recount",
    "verify",
    "close TOKENFILE garbage",
    "record SETUP g",
    "record JOURNAL g",
)
# These report what they found, line by line, for auditors.
REPORTS = ("verify", "check-receipts")
SPOILED = ("missing", "a-folder", "unreadable", "garbage")
# What Python says, and no person.
TRACEBACK = re.compile("Traceback")
PYTHONS = re.compile(r"Traceback|\[Errno|\b[A-Z][A-Za-z]*Error\b|object has no|not subscriptable")


@pytest.fixture(scope="module")
def place() -> Iterator[pathlib.Path]:
    """A folder that any user can read, with the command, files that are right, and spoiled ones."""
    with open_folder() as folder:
        shutil.copytree(TOP / "auction", folder / "auction", ignore=CHANGING)
        place = folder / "place"
        fill(place)
        made = run(place, "commit setup.json folder/kept folder/public")
        assert made.returncode == 0, made.stderr
        yield place


def fill(place: pathlib.Path) -> None:
    """Writes the files, and the spoiled ones."""
    place.mkdir(mode=0o777)
    place.chmod(0o777)
    shutil.copy(SETUP, place / "setup.json")
    (place / "journal").write_bytes(b"")
    (place / "token").write_text("OPERATOROPERATOR\n")
    (place / "receipts").write_text("{}\n")
    (place / "products.csv").write_text("name,units,supply,opening\nA,1,2,100\n")
    (place / "bidders.csv").write_text("name,eligibility\nX,2\n")
    for name in ("folder", "public", "kept", "a-folder"):
        (place / name).mkdir()
        (place / name).chmod(0o777)
    files = {name: f"../{name}" for name in ("token", "journal")}
    settings = {"url": "http://127.0.0.1:9", "setup": "../setup.json", **files}
    (place / "folder/conductor.json").write_text(json.dumps(settings))
    (place / "unreadable").write_text("{}")
    (place / "unreadable").chmod(0)
    (place / "garbage").write_bytes(b"\xff\x00{[\n" * 100)
    (place / "deep").write_text("[" * 100_000)


def run(place: pathlib.Path, words: str) -> subprocess.CompletedProcess[str]:
    """Runs the command as a user who is not root, to whom files can be unreadable."""
    command = ["/usr/bin/python3", str(place.parent / "auction/bin/auction"), *words.split()]
    other = {"user": "nobody", "group": "nogroup", "extra_groups": []}
    return subprocess.run(
        command,
        cwd=place,
        capture_output=True,
        text=True,
        timeout=60,
        stdin=subprocess.DEVNULL,
        **(other if os.geteuid() == 0 else {}),  # type: ignore[call-overload]
    )


@pytest.mark.parametrize("spoiled", SPOILED)
@pytest.mark.parametrize("words", CALLS.values(), ids=CALLS)
def test_what_is_wrong_with_a_file_is_said_in_words(
    place: pathlib.Path, words: str, spoiled: str
) -> None:
    done = run(place, words.format(spoiled))
    said = done.stdout + done.stderr
    assert done.returncode in (1, 2), said
    assert not (TRACEBACK if words.startswith(REPORTS) else PYTHONS).search(said), said
    name = next(name for name, call in CALLS.items() if call == words)
    assert spoiled in said or f"{name} {spoiled}".startswith(WITHOUT_NAME), said


@pytest.mark.parametrize("name", ["init SETUP", "plan FILE", "check FILE", "explain FILE"])
def test_brackets_in_each_other_are_refused_in_words(place: pathlib.Path, name: str) -> None:
    done = run(place, CALLS[name].format("deep"))
    said = done.stdout + done.stderr
    assert done.returncode in (1, 2) and said.strip()
    assert not PYTHONS.search(said), said


@pytest.mark.parametrize("words", ["--version", "--help", "run --rules", "lots setup.json -"])
def test_a_reader_that_ends_early_gets_no_words_of_python(place: pathlib.Path, words: str) -> None:
    command = ["/usr/bin/python3", place.parent / "auction/bin/auction", *words.split()]
    read, write = os.pipe()
    os.close(read)
    done = subprocess.run(
        command, cwd=place, stdout=write, stderr=subprocess.PIPE, text=True, timeout=60
    )
    os.close(write)
    assert not PYTHONS.search(done.stderr), done.stderr


@pytest.mark.parametrize("words", ["ready", "run", "status", "winners", "pause", "plan", "next"])
@pytest.mark.parametrize("spoiled", SPOILED)
def test_what_is_wrong_with_a_folder_is_said_in_words(
    place: pathlib.Path, words: str, spoiled: str
) -> None:
    more = {"pause": "why", "plan": "setup.json", "next": "1"}.get(words, "")
    done = run(place, f"{words} {spoiled} {more}")
    said = done.stdout + done.stderr
    assert done.returncode in (1, 2), said
    assert not PYTHONS.search(said), said
    assert said.strip(), "nothing is said"


def test_without_settings_it_says_what_makes_them(place: pathlib.Path) -> None:
    done = run(place, "run public")
    assert (done.returncode, done.stdout) == (1, "")
    words = "`auction init` makes it, and docs/formats.md describes it"
    assert done.stderr.endswith(f"there is no {place}/public/conductor.json: {words}\n")


@pytest.mark.parametrize("command", [command.name for command in COMMANDS])
def test_help_is_on_standard_output_with_status_0(command: str, place: pathlib.Path) -> None:
    done = run(place, f"{command} --help")
    assert (done.returncode, done.stderr) == (0, "")
    assert done.stdout.startswith(f"usage: auction {command} ")


@pytest.mark.parametrize("words", ["--help", "--version"])
def test_help_and_version_of_the_whole_are_on_standard_output(
    words: str, place: pathlib.Path
) -> None:
    done = run(place, words)
    assert (done.returncode, done.stderr) == (0, "")
    assert "auction" in done.stdout


def test_an_unknown_command_has_status_2_and_names_those_that_there_are(
    place: pathlib.Path,
) -> None:
    done = run(place, "opne")
    assert done.returncode == 2 and done.stdout == ""
    assert "init" in done.stderr and "ready" in done.stderr
