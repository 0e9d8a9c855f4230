"""tools/surface on a small crate: it shows each promise that became weaker, and no other change."""
import pathlib
import shutil
import subprocess
import sys

import pytest

from tests.lib.paths import TOP
from tools.surfaces import lines_of, read_surface, surface_of, weaker_in

pytestmark = pytest.mark.early

LIB = "pub use counts::{Count, add, is_word};\nmod counts;\n"
COUNTS = """ghost use Rattle.clock_one.specs.Sums.{IsSmall, total};

/// A count.
pub struct Count {
    value: u64,
}

impl Model for Count {
    ghost Value = { ℕ };

    ghost invariant = { λ c. IsSmall c.value };
}

/// Adds one.
pub fn add(count: u64) -> u64
    requires small { IsSmall count }
    ensures sum { result ≡ total count }
    ensures more { count < result }
{
    count + 1
}

/// Whether a word has this many letters.
pub fn is_word(word: &[u8; 8], count: u64) -> bool {
    count == 8
}
"""
SUMS = """-- Sums.
use Rattle.std.specs.Prelude.{◌≡◌, ℕ}

-- it is small
abbrev pub IsSmall : ℕ → Type 0
IsSmall count = count < 9

-- the sum
abbrev pub total : ℕ → ℕ
total count = suc count
"""


@pytest.fixture
def checkout(tmp_path: pathlib.Path) -> pathlib.Path:
    """A checkout with one small crate, and its list."""
    for name, text in {
        "crates/clock_one/src/lib.rt": LIB,
        "crates/clock_one/src/counts.rt": COUNTS,
        "crates/clock_one/specs/Sums.antt": SUMS,
        "docs/DECISIONS.md": "# Decisions\n",
    }.items():
        path = tmp_path / name
        path.parent.mkdir(parents=True, exist_ok=True)
        path.write_text(text)
    (tmp_path / "tools").mkdir()
    for name in ("surface", "surfaces.py", "specifications.py"):
        shutil.copy(TOP / "tools" / name, tmp_path / "tools" / name)
    assert ran(checkout=tmp_path, word="--write").returncode == 0
    return tmp_path


def ran(checkout: pathlib.Path, word: str | None = None) -> subprocess.CompletedProcess[str]:
    command = [sys.executable, checkout / "tools/surface", *([word] if word else [])]
    return subprocess.run(command, capture_output=True, text=True, timeout=60)


def change(checkout: pathlib.Path, name: str, old: str, new: str) -> None:
    """Replaces a text of a file of the crate."""
    path = checkout / "crates/clock_one" / name
    text = path.read_text()
    assert text.count(old) == 1
    path.write_text(text.replace(old, new))


SOURCE, SPECS = "src/counts.rt", "specs/Sums.antt"
WEAKER = {
    "an export is gone": ("src/lib.rt", "Count, add", "Count"),
    "a premise is new": (
        SOURCE,
        "    ensures sum",
        "    requires even { Even count }\n    ensures sum",
    ),
    "a premise asks for more": (SOURCE, "{ IsSmall count }", "{ IsSmaller count }"),
    "a clause is gone": (SOURCE, "    ensures more { count < result }\n", ""),
    "a clause says less": (SOURCE, "{ count < result }", "{ count ≤ result }"),
    "an invariant is gone": (SOURCE, "    ghost invariant = { λ c. IsSmall c.value };\n", ""),
    "another view": (SOURCE, "ghost Value = { ℕ }", "ghost Value = { Unit }"),
    "another signature": (SOURCE, "(count: u64) -> u64", "(count: u32) -> u64"),
    "another signature after an array": (SOURCE, "8], count: u64", "8], count: u32"),
    "a definition has changed": (SPECS, "count < 9", "count < 10"),
}


@pytest.mark.parametrize(("name", "old", "new"), WEAKER.values(), ids=WEAKER)
def test_a_weaker_promise_fails_until_the_decisions_name_it(
    checkout: pathlib.Path, name: str, old: str, new: str
) -> None:
    change(checkout, name, old, new)
    assert ran(checkout).returncode == 1
    assert ran(checkout, "--write").returncode == 1
    named = "# Decisions\n\n`add`, `is_word`, `Count`, `IsSmall`, `Model for Count`\n"
    (checkout / "docs/DECISIONS.md").write_text(named)
    assert ran(checkout).returncode == 1
    assert ran(checkout, "--write").returncode == 0
    assert ran(checkout).returncode == 0


NOT_WEAKER = {
    "a clause is new": (
        SOURCE,
        "    ensures more",
        "    ensures least { 1 ≤ result }\n    ensures more",
    ),
    "a premise is gone": (SOURCE, "    requires small { IsSmall count }\n", ""),
    "an item is new": (SOURCE, "/// Adds one.", "impl Count {\n    pub fn one() -> u64 { 1 }\n}\n"),
}


@pytest.mark.parametrize(("name", "old", "new"), NOT_WEAKER.values(), ids=NOT_WEAKER)
def test_a_stronger_promise_is_written_without_a_decision(
    checkout: pathlib.Path, name: str, old: str, new: str
) -> None:
    change(checkout, name, old, new)
    assert ran(checkout).returncode == 1
    assert ran(checkout, "--write").returncode == 0


SAME = {
    "a comment": (SPECS, "-- the sum", "-- the sum of a count"),
    "white space": (SPECS, "IsSmall count = count < 9", "IsSmall count =\n  count < 9"),
    "a body": (SOURCE, "    count + 1", "    1 + count"),
}


@pytest.mark.parametrize(("name", "old", "new"), SAME.values(), ids=SAME)
def test_what_promises_the_same_changes_nothing(
    checkout: pathlib.Path, name: str, old: str, new: str
) -> None:
    change(checkout, name, old, new)
    assert ran(checkout).returncode == 0


def test_list_of_this_repository_is_that_of_its_crates() -> None:
    assert ran(TOP).returncode == 0, ran(TOP).stdout[-2000:]


def test_a_list_is_read_as_it_was_written() -> None:
    surface = surface_of(TOP)
    assert read_surface("\n".join(lines_of(surface))) == surface
    assert weaker_in(surface, surface) == []
