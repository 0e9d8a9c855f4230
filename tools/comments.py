"""The comments of source files, definitions, proofs and scripts, as paragraphs that a person reads.
"""
import ast
import pathlib
import re
from collections.abc import Iterable, Iterator

from tools import documents

# A comment, after the strings before it on its line.
OF_RATTLE = re.compile(r'(?:[^"/]|"(?:[^"\\]|\\.)*"|/(?!/))*?(//[/!]?.*)')
OF_PROOFS = re.compile(r'(?:[^"-]|"(?:[^"\\]|\\.)*"|-(?!-))*?(--(?:\s.*)?)$')
OF_SCRIPTS = re.compile(r"^\s*(#(?!!).*)")
OF_PAGES = re.compile(r"^\s*(//.*)")
MARK = re.compile(r"^(///|//!|//|--|#)[ ]?")
# A line `name arguments      what it means` of the list at the head of a file of definitions.
LISTED = re.compile(r"^\s{4,}(?:\S.*?\s{2,})?(\S.*)$")


def lines_of(text: str, comment: re.Pattern[str]) -> Iterator[tuple[int, str, bool]]:
    """Yields of each line with a comment its number, its words, and whether it has no code."""
    for number, line in enumerate(text.splitlines(), 1):
        if found := comment.match(line):
            yield number, MARK.sub("", found[1]).rstrip(), line.lstrip() == found[1]


def blocks(lines: Iterable[tuple[int, str, bool]]) -> Iterator[tuple[int, list[str]]]:
    """Comments on lines that follow each other, with the number of the first."""
    begun, gathered = 0, list[str]()
    for number, words, whole in lines:
        if gathered and not (whole and number == begun + len(gathered)):
            yield begun, gathered
            gathered = []
        if not gathered:
            begun = number
        gathered.append(words)
    if gathered:
        yield begun, gathered


def of_block(file: str, begun: int, lines: list[str], lists: bool) -> Iterator[documents.Paragraph]:
    """The paragraphs of a comment. If `lists`, an indented line is an entry of a list of
    definitions.
    """
    plain = [("" if lists and LISTED.match(line) else line) for line in lines]
    for found in documents.of_markdown(file, "\n".join(plain)):
        yield found._replace(line=begun + found.line - 1)
    for at, line in enumerate(lines if lists else []):
        if entry := LISTED.match(line):
            yield documents.Paragraph(file, begun + at, documents.plain(entry[1]))


def docstrings(text: str) -> Iterator[tuple[int, list[str]]]:
    """Yields the docstrings of a module, each with the line on which it begins."""
    for node in ast.walk(module := ast.parse(text)):
        if isinstance(node, ast.Module | ast.ClassDef | ast.FunctionDef):
            if words := ast.get_docstring(node, clean=node is not module):
                yield node.body[0].lineno, words.splitlines()


def paragraphs(top: pathlib.Path, file: str) -> list[documents.Paragraph]:
    """The comments of a file."""
    text = (top / file).read_text()
    suffix = pathlib.Path(file).suffix
    python = suffix == ".py" or text.startswith("#!/usr/bin/env python3")
    comment = {".rt": OF_RATTLE, ".rs": OF_RATTLE, ".antt": OF_PROOFS, ".js": OF_PAGES}.get(
        suffix, OF_SCRIPTS
    )
    found = [*blocks(lines_of(text, comment)), *(docstrings(text) if python else [])]
    return [
        one for begun, lines in found for one in of_block(file, begun, lines, suffix == ".antt")
    ]
