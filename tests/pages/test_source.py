"""How the pages are written: types, layout, and what no page may do."""
import gzip
import pathlib
import re
import subprocess

import pytest

from tests.lib.paths import TOP

pytestmark = pytest.mark.early

WEB = TOP / "web"
HERE = pathlib.Path(__file__).parent
KINDS = (".html", ".css", ".js", ".svg")
SCRIPTS = sorted(WEB.glob("*.js"))
FILES = sorted(file for file in WEB.iterdir() if file.suffix in KINDS)
TYPES = "--checkJs --allowJs --noEmit --target es2022 --module es2022 --moduleResolution node"
LIBRARIES = "--lib esnext,dom,dom.iterable"

MOST_COLUMNS = 100
# The most bytes of a page and its files, as nginx sends them: each is compressed, by level 1.
MOST_BYTES = {"index.html": 102_000, "operator.html": 66_400, "results.html": 48_200}
# What would put text in as HTML, run it, or store it.
FORBIDDEN = re.compile(
    r"innerHTML|outerHTML|insertAdjacentHTML|document\.write|\beval\(|new Function"
    r"|localStorage|document\.cookie|indexedDB|console\."
)
STORES = "draft.js"  # the only file that may keep something in the tab; no token comes near it
INLINE = re.compile(r"<style|\sstyle=|\son[a-z]+=|<script(?![^>]*\ssrc=)[^>]*>|javascript:")


def names(files: list[pathlib.Path]) -> list[str]:
    return [file.name for file in files]


def test_the_folder_has_the_pages_and_nothing_else() -> None:
    assert sorted(file.name for file in WEB.iterdir()) == names(FILES)


@pytest.mark.needs("tsc")
def test_types_fit() -> None:
    command: list[str | pathlib.Path] = [
        "tsc",
        *TYPES.split(),
        *LIBRARIES.split(),
        *SCRIPTS,
        HERE / "browsers.d.ts",
    ]
    done = subprocess.run(command, capture_output=True, text=True)
    assert (done.returncode, done.stdout) == (0, "")


@pytest.mark.needs("clang-format")
@pytest.mark.parametrize("script", SCRIPTS, ids=names(SCRIPTS))
def test_a_script_is_formatted(script: pathlib.Path) -> None:
    style = f"--style=file:{HERE / 'clang-format'}"
    done = subprocess.run(
        ["clang-format", style, "--dry-run", "--Werror", script], capture_output=True, text=True
    )
    assert done.returncode == 0, done.stderr[:2000]


@pytest.mark.parametrize("file", FILES + sorted(HERE.glob("*.js")), ids=lambda file: file.name)
def test_no_line_is_too_wide(file: pathlib.Path) -> None:
    lines = enumerate(file.read_text().splitlines(), 1)
    assert [(number, line) for number, line in lines if len(line) > MOST_COLUMNS] == []


@pytest.mark.parametrize("file", FILES, ids=names(FILES))
def test_a_page_neither_puts_text_in_as_html_nor_runs_or_stores_it(file: pathlib.Path) -> None:
    assert FORBIDDEN.findall(file.read_text()) == []


@pytest.mark.parametrize("file", FILES, ids=names(FILES))
def test_only_the_draft_is_kept_in_the_tab(file: pathlib.Path) -> None:
    assert file.name == STORES or "sessionStorage" not in file.read_text()


def test_the_draft_has_no_token() -> None:
    assert "token" not in re.sub(r"//.*|/\*.*?\*/", "", (WEB / STORES).read_text(), flags=re.S)


@pytest.mark.parametrize("page", sorted(WEB.glob("*.html")), ids=lambda page: page.name)
def test_a_page_has_no_inline_script_or_style(page: pathlib.Path) -> None:
    assert INLINE.findall(page.read_text()) == []


@pytest.mark.parametrize("page", MOST_BYTES)
def test_a_page_is_small(page: str) -> None:
    named = re.findall(r'(?:href|src)="([a-z_]+\.(?:js|css|svg))"', (WEB / page).read_text())
    files = [WEB / name for name in {page, *named}]
    assert sum(len(gzip.compress(file.read_bytes(), 1)) for file in files) < MOST_BYTES[page]


@pytest.mark.parametrize("script", SCRIPTS, ids=names(SCRIPTS))
def test_a_script_imports_what_another_exports(script: pathlib.Path) -> None:
    """Each name that a module imports is one that the other exports, and is used."""
    text = script.read_text()
    for imported, module in re.findall(r"import\s*\{([^}]*)\}\s*from \"\./([a-z_]+\.js)\"", text):
        exported = re.findall(
            r"export (?:const|let|class|function|async function) (\w+)|, (\w+) =",
            (WEB / module).read_text(),
        )
        for name in re.findall(r"\w+", imported):
            assert any(name in pair for pair in exported), f"{module} does not export {name}"
            uses = re.sub(r"import\s*\{[^}]*\}\s*from [^\n]*", "", text)
            assert re.search(rf"\b{name}\b", uses), f"{name} is not used"
