"""Copies the pages into an auction's folder.

Their scripts and styles go to a folder that is named by the contents of all of them, so that a
browser may store them for good, and never has files of two versions.
"""
import hashlib
import pathlib
import re
import shutil

LETTERS = 12  # of a version: nginx.conf has the same number
REFERENCE = re.compile(r'\b(href|src)="([a-z_]+\.(?:js|css|svg))"')


def version_of(source: pathlib.Path) -> str:
    """The name of the folder of the scripts and styles in `source`."""
    digest = hashlib.sha256()
    for file in parts_of(source):
        digest.update(f"{file.name} {file.stat().st_size}\n".encode() + file.read_bytes())
    return "v" + digest.hexdigest()[:LETTERS]


def parts_of(source: pathlib.Path) -> list[pathlib.Path]:
    """The scripts, styles, and the icon in `source`."""
    return sorted(file for file in source.iterdir() if file.suffix in (".js", ".css", ".svg"))


def copy_pages(source: pathlib.Path, target: pathlib.Path) -> None:
    """Makes `target`: pages that name the scripts and styles in the folder of their version."""
    version = version_of(source)
    (target / version).mkdir(parents=True)
    for part in parts_of(source):
        shutil.copy(part, target / version / part.name)
    for page in source.glob("*.html"):
        text = page.read_text(encoding="utf-8")
        text = REFERENCE.sub(rf'\1="{version}/\2"', text)
        (target / page.name).write_text(text, encoding="utf-8")
        (target / page.name).chmod(0o644)
