"""What the documents say: words, links, and the definitions that must be believed."""
import subprocess

import pytest

from tests.lib.paths import TOP

pytestmark = pytest.mark.early


def ran(*words: str) -> subprocess.CompletedProcess[str]:
    command = [str(TOP / "tools" / words[0]), *words[1:]]
    return subprocess.run(command, cwd=TOP, capture_output=True, text=True, timeout=120)


def test_documents_help_and_pages_are_plain() -> None:
    done = ran("prose")
    assert not done.returncode, done.stdout


def test_comments_are_plain() -> None:
    done = ran("prose", "--comments")
    assert not done.returncode, done.stdout


def test_links_paths_and_names_exist() -> None:
    done = ran("links")
    assert not done.returncode, done.stdout


def test_definitions_to_believe_are_where_they_belong_and_counted() -> None:
    done = ran("believed", "--quiet")
    assert not done.returncode, done.stdout
