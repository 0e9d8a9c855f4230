"""What `auction explain` prints, and its exit status."""
import pathlib
import shutil
import subprocess
import sys

import pytest

from auction import installed as installed_files
from auction.cli import main
from auction.explain import form, schemas
from tests.explain.cases import example
from tests.lib.paths import CHANGING, TOP, auction

WHOLE = example("one_product")
TWICE = WHOLE.replace(b'"version"', b'"version":1,"version"')
NO_PROGRAM = "it: no errors (not played, since no program was found)"


@pytest.fixture
def it(tmp_path: pathlib.Path, monkeypatch: pytest.MonkeyPatch) -> pathlib.Path:
    """The file `it`, in the folder in which the command runs."""
    monkeypatch.chdir(tmp_path)
    return pathlib.Path("it")


def lines_of(program: object, file: object, kind: str = "setup") -> tuple[int, list[str]]:
    """The status and the lines of the command."""
    done = auction("explain", kind, file, "--program", program)
    assert done.stderr == ""
    return done.returncode, done.stdout.splitlines()


def test_errors_follow_the_programs_line(program: pathlib.Path, it: pathlib.Path) -> None:
    it.write_bytes(b'{\n "version": 1, "x": 2}')
    status, lines = lines_of(program, it)
    assert (status, lines[0]) == (1, "fault: setup_shape")
    assert 'it:2:16: .: unknown key "x"' in lines


def test_errors_are_in_the_order_of_the_text(program: pathlib.Path, it: pathlib.Path) -> None:
    it.write_bytes(b'{"version": 1,\n"requirement": "95", "operator": 5, "products": 1}')
    lines = lines_of(program, it)[1][1:]
    places = [tuple(map(int, line.split(":")[1:3])) for line in lines]
    assert places == sorted(places)
    assert len(places) == 4


def test_repeated_key_is_a_note(program: pathlib.Path, it: pathlib.Path) -> None:
    it.write_bytes(TWICE)
    words = 'the key "version" occurs twice; the last one counts'
    status, lines = lines_of(program, it)
    assert status == 0
    assert [line.endswith(words) and line.startswith("note: it:") for line in lines] == [True]


def test_good_document_has_no_error(program: pathlib.Path, it: pathlib.Path) -> None:
    it.write_bytes(WHOLE)
    assert lines_of(program, it) == (0, ["it: no errors"])


def test_without_the_program_no_auction_is_played(it: pathlib.Path) -> None:
    it.write_bytes(WHOLE)
    assert lines_of("/nowhere", it) == (0, [NO_PROGRAM])


def test_sheet_is_judged_by_itself(program: pathlib.Path, it: pathlib.Path) -> None:
    it.write_text('{"bids":[],"round":1}')
    words = "it: no errors (only a server judges the rest)"
    assert lines_of(program, it, "sheet") == (0, [words])


def test_at_most_fifty_errors_are_printed(program: pathlib.Path, it: pathlib.Path) -> None:
    it.write_bytes(b"{" + b",".join(b'"k%d":1' % number for number in range(60)) + b"}")
    assert lines_of(program, it)[1][51:] == ["and 15 more"]


def test_document_may_come_from_standard_input(program: pathlib.Path) -> None:
    done = auction("explain", "setup", "-", "--program", program, input=WHOLE.decode())
    assert (done.returncode, done.stdout) == (0, "-: no errors\n")


@pytest.mark.parametrize("words", [["setup"], ["nothing", "it"], ["setup", "none.json"]])
def test_wrong_argument_or_file_has_status_2(words: list[str]) -> None:
    done = auction("explain", *words)
    assert (done.returncode, done.stdout) == (2, "")
    assert done.stderr


@pytest.mark.early
@pytest.mark.parametrize("option", ["--help", "-h"])
def test_help_has_status_0(option: str) -> None:
    done = auction("explain", option)
    assert done.returncode == 0
    assert "Reports every error in a document" in done.stdout


@pytest.fixture
def installed(tmp_path: pathlib.Path) -> pathlib.Path:
    """The command, copied elsewhere without the repository."""
    shutil.copytree(TOP / "auction", tmp_path / "auction", ignore=CHANGING)
    return tmp_path / "auction/bin/auction"


def explain_by(command: pathlib.Path) -> subprocess.CompletedProcess[str]:
    """Explains a sheet by a command that is installed elsewhere."""
    words = [sys.executable, str(command), "explain", "sheet", "-"]
    return subprocess.run(words, input='{"bids":[]}', capture_output=True, text=True, timeout=60)


def test_schemas_are_found_beside_the_package(installed: pathlib.Path) -> None:
    shutil.copytree(TOP / "schemas", installed.parents[2] / "schemas", ignore=CHANGING)
    done = explain_by(installed)
    assert (done.returncode, done.stderr) == (1, "")
    assert done.stdout == '-:1:1: .: the key "round" is missing\n'


def test_missing_schemas_are_said_in_one_line(
    it: pathlib.Path, monkeypatch: pytest.MonkeyPatch, capsys: pytest.CaptureFixture[str]
) -> None:
    it.write_text('{"bids":[]}')
    monkeypatch.setattr(installed_files, "PLACES", (pathlib.Path("none"),))
    monkeypatch.setattr(schemas, "content", schemas.content.__wrapped__)
    monkeypatch.setattr(form, "validator", form.validator.__wrapped__)
    assert main(["explain", "sheet", "it"]) == 2
    words = capsys.readouterr().err
    assert words.count("\n") == 1 and "sheet.schema.json is not installed" in words


def test_missing_package_is_named() -> None:
    lines = ("import sys", "sys.modules['jsonschema'] = None", "from auction.cli import main")
    code = "; ".join([*lines, "sys.exit(main(['explain', 'setup', '-']))"])
    words = [sys.executable, "-c", code]
    done = subprocess.run(words, cwd=TOP, input="{}", capture_output=True, text=True, timeout=60)
    assert (done.returncode, done.stdout) == (2, "")
    assert done.stderr == "auction explain needs Debian's package python3-jsonschema\n"
