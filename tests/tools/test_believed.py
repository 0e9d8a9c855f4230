"""tools/believed on a small crate: it lists exactly what the public clauses reach, and refuses
unknown forms.
"""
import pathlib
import subprocess
import sys

import pytest

from tests.lib.paths import TOP

pytestmark = pytest.mark.early

TOOL = TOP / "tools" / "believed"

SOURCE = """//! A crate.
ghost use Rattle.clock_one.specs.{Sums.{Small, total}, Faults.{IsFault}, inside.Own.{IsOwn}};

/// A public call.
pub fn add(count: u64) -> u64
    requires small { Small count }
    ensures { result ≡ total count }
{
    own(count)
}

fn own(count: u64) -> u64
    ensures { IsOwn count result }
{
    count
}
"""
SPECS = {
    "Sums.antt": """-- Sums.
use Rattle.std.specs.Prelude.{◌≡◌, ℕ}
use Rattle.clock_one.specs.Faults.{Fault}

-- it is small
pub record Small (count : ℕ) : Type 0 where
  pub fault : Fault

-- the sum
abbrev pub total : ℕ → ℕ
total count = count
""",
    "Faults.antt": """-- Faults.

-- what can be wrong
pub data Fault : Type 0 where
  high : Fault
""",
    "inside/Own.antt": """-- What only the private function says.
use Rattle.std.specs.Prelude.{◌≡◌, ℕ}

-- it is its own
abbrev pub IsOwn : ℕ → ℕ → Type 0
IsOwn count own = count ≡ own
""",
}
SUMS = (
    "headline",
    "second headline",
    "rules",
    "bytes",
    "the journal and the loop",
    "documents and program",
    "layer 1, a round",
    "layer 2, an auction",
    "layer 3, bytes and privacy",
    "headline, in the kit",
    "second headline, in the kit",
)
REACHED = (
    "documents and program: 3 definitions, 9 lines with their comments, in 2 files of 16 lines"
)

# A file of the small crate, and a line of a form that tools/believed does not know.
UNKNOWN = (
    ("src/lib.rt", "union Number { one: u64 }"),
    ("src/lib.rt", "numbers! { 1, 2 }"),
    ("src/lib.rt", "pub async fn wait() {}"),
    ("src/lib.rt", '    pub extern "C" fn call(&self) -> u64'),
    ("src/lib.rt", "    ensures[law] { Small count }"),
    ("specs/Sums.antt", "postulate more : ℕ → ℕ"),
    ("specs/Sums.antt", "axiom pub more : ℕ → ℕ"),
    ("specs/Sums.antt", "pub class More : Type 0 where"),
)


@pytest.fixture
def crate(tmp_path: pathlib.Path) -> pathlib.Path:
    """A repository of the small crate, its documents, and a copy of the tool. Returns the crate's
    folder.
    """
    crate = tmp_path / "crates/clock_one"
    files = {"src/lib.rt": SOURCE} | {f"specs/{name}": text for name, text in SPECS.items()}
    for name, text in files.items():
        (crate / name).parent.mkdir(parents=True, exist_ok=True)
        (crate / name).write_text(text, encoding="utf-8")
    (tmp_path / "crates.txt").write_text("clock_one:\n", encoding="utf-8")
    (tmp_path / "docs").mkdir()
    sums = "".join(f"    {title}: 0\n" for title in SUMS)
    (tmp_path / "docs/proof.md").write_text(sums, encoding="utf-8")
    (tmp_path / "tools").mkdir()
    for name in ("believed", "specifications.py"):
        (tmp_path / "tools" / name).write_bytes((TOOL.parent / name).read_bytes())
    return crate


def ran(crate: pathlib.Path) -> tuple[int, str]:
    """Runs the tool on that crate. It writes the sums, so they are no fault."""
    command = [sys.executable, crate.parents[1] / "tools/believed", "--quiet", "--write"]
    ended = subprocess.run(command, capture_output=True, text=True, timeout=60)
    return ended.returncode, ended.stdout + ended.stderr


def test_lists_what_public_clauses_reach(crate: pathlib.Path) -> None:
    status, said = ran(crate)
    assert status == 0, said
    assert REACHED in said


@pytest.mark.parametrize(("name", "line"), UNKNOWN)
def test_refuses_an_unknown_form(crate: pathlib.Path, name: str, line: str) -> None:
    with open(crate / name, "a", encoding="utf-8") as file:
        file.write(f"\n{line}\n")
    status, said = ran(crate)
    assert status == 1
    assert "of no known form" in said


@pytest.mark.needs("rt")
def test_follows_names_into_the_kit() -> None:
    """A request's head is what the kit's crate httparse says, and a body is JSON."""
    ended = subprocess.run([TOOL, "--quiet"], capture_output=True, text=True, timeout=60)
    line = next(
        line for line in ended.stdout.splitlines() if line.startswith("headline, in the kit")
    )
    assert " httparse," in line and " json," in line
