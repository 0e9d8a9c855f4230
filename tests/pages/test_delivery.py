"""How the pages' files reach a browser: what a page loads first, and the version of its files."""
import pathlib
import re
import shutil

import pytest

from auction.pages import copy_pages, version_of
from tests.lib.paths import TOP

pytestmark = pytest.mark.early

WEB = TOP / "web"
# The pages whose modules are loaded at once.
PAGES = {"index.html": "bidder.js", "operator.html": "operator.js", "results.html": "results.js"}


def modules_of(name: str) -> set[str]:
    """The modules that a module imports, also through others."""
    found: set[str] = set()
    waiting = [name]
    while waiting:
        text = (WEB / waiting.pop()).read_text()
        new = set(re.findall(r'from "\./([a-z_]+\.js)"', text)) - found
        found |= new
        waiting += new
    return found


@pytest.mark.parametrize("page, main", PAGES.items())
def test_a_page_loads_all_of_its_modules_at_once(page: str, main: str) -> None:
    text = (WEB / page).read_text()
    named = re.findall(r'<link rel="modulepreload" href="([^"]+)">', text)
    assert named == sorted(modules_of(main))
    assert f'<script type="module" src="{main}">' in text


@pytest.mark.parametrize("page", PAGES)
def test_a_page_says_that_a_module_is_missing_until_all_are_there(page: str) -> None:
    assert re.search(r'<p id="loading">[^<]*reload the page', (WEB / page).read_text())


@pytest.fixture
def source(tmp_path: pathlib.Path) -> pathlib.Path:
    return shutil.copytree(WEB, tmp_path / "source")


def test_a_version_changes_with_each_byte_and_name(source: pathlib.Path) -> None:
    versions = {version_of(source)}
    (source / "clock.js").write_bytes((source / "clock.js").read_bytes() + b"\n")
    versions.add(version_of(source))
    (source / "clock.js").rename(source / "clocks.js")
    versions.add(version_of(source))
    assert len(versions) == 3
    assert all(re.fullmatch("v[0-9a-f]{12}", version) for version in versions)


def test_a_copied_page_names_no_file_without_a_version(
    source: pathlib.Path, tmp_path: pathlib.Path
) -> None:
    copy_pages(source, tmp_path / "web")
    version = version_of(source)
    top = sorted(path.name for path in (tmp_path / "web").iterdir())
    assert top == sorted([*(page.name for page in source.glob("*.html")), version])
    for page in (tmp_path / "web").glob("*.html"):
        named = re.findall(r'(?:href|src)="([^"#]+\.(?:js|css|svg))"', page.read_text())
        assert named and all(name.startswith(version + "/") for name in named)
        assert all((tmp_path / "web" / name).is_file() for name in named)


def test_a_script_names_others_beside_it_only() -> None:
    """So that all files of a page are of one version."""
    for script in WEB.glob("*.js"):
        for name in re.findall(r'from "([^"]+)"', script.read_text()):
            assert re.fullmatch(r"\./[a-z_]+\.js", name), script.name
