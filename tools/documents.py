"""The prose of this repository without code: paragraphs of documents, help texts, and strings of
pages.
"""
import html
import pathlib
import re
import subprocess
from collections.abc import Iterator
from typing import NamedTuple

DOCUMENTS = ["*.md", "docs/*.md", "tests/README.md", "schemas/README.md"]

FENCE = re.compile(r"^\s*(```|~~~)")
ITEM = re.compile(r"^\s*([-*]|\d+\.)\s+")
RULER = re.compile(r"^\|[\s:|-]+\|?$")
CODE = re.compile(r"(`+)(.+?)\1")
LINK = re.compile(r"(?<!!)\[([^\]]*)\]\(([^)\s]*)\)")
PICTURE = re.compile(r"!\[([^\]]*)\]\(([^)\s]*)\)")
HTML_TEXT = re.compile(r">([^<>]+)<|\b(?:title|alt|placeholder|aria-label)=\"([^\"]+)\"")
JS_STRING = re.compile(r"\"((?:[^\"\\\n]|\\.)*)\"|'((?:[^'\\\n]|\\.)*)'|`((?:[^`\\]|\\.)*)`", re.S)
RUST_STRING = re.compile(r"\"((?:[^\"\\]|\\.)*)\"", re.S)


class Paragraph(NamedTuple):
    """A paragraph, an item of a list, a cell of a table, or a string of a program, and the line on
    which it begins.
    """

    file: str
    line: int
    text: str


def tracked(top: pathlib.Path, *globs: str) -> list[str]:
    """The files that git has or would add, sorted: all, or those that match `globs`."""
    command = ["git", "ls-files", "-co", "--exclude-standard", "--", *globs]
    listed = subprocess.run(command, cwd=top, capture_output=True, text=True, check=True).stdout
    return [name for name in sorted(set(listed.splitlines())) if (top / name).is_file()]


def plain(text: str) -> str:
    """The text without markup. A code span becomes one word, a link its text."""
    text = CODE.sub("CODE", text)
    text = LINK.sub(r"\1", PICTURE.sub(r"\1", text))
    return re.sub(r"\*\*|\*(?=\w)|(?<=[\w.,:)])\*", "", text).strip()


def of_markdown(file: str, text: str) -> Iterator[Paragraph]:
    """The paragraphs of a Markdown document. Indented and fenced blocks are code."""
    gathered: list[str] = []
    begun = 0
    fenced = False

    def whole() -> Iterator[Paragraph]:
        if gathered:
            yield Paragraph(file, begun, plain(" ".join(gathered)))
            gathered.clear()

    for number, line in enumerate(text.splitlines(), 1):
        if FENCE.match(line):
            yield from whole()
            fenced = not fenced
        elif fenced or RULER.match(line):
            continue
        elif line.startswith("    ") and not gathered:
            continue
        elif line.startswith("|"):
            yield from whole()
            for cell in cells(line):
                yield Paragraph(file, number, plain(cell))
        elif not line.strip() or line.startswith(("#", "<!--")):
            yield from whole()
            if line.startswith("#"):
                yield Paragraph(file, number, plain(line.lstrip("# ")))
        else:
            if ITEM.match(line):
                yield from whole()
            if not gathered:
                begun = number
            gathered.append(ITEM.sub("", line).strip())
    yield from whole()


def cells(line: str) -> list[str]:
    """The cells of a row of a table. A bar in a code span is escaped."""
    return [cell.strip() for cell in re.split(r"(?<!\\)\|", line.strip().strip("|"))]


def of_html(file: str, text: str) -> Iterator[Paragraph]:
    """The texts between the tags of a page, and of the attributes that a browser shows or reads
    aloud.
    """
    text = re.sub(
        r"<!--.*?-->|<(script|style)\b.*?</\1>",
        lambda gone: "\n" * gone[0].count("\n"),
        text,
        flags=re.S,
    )
    text = re.sub(
        r"</?(a|b|em|i|kbd|small|span|strong)\b[^<>]*>",
        " ",
        re.sub(r"<code>.*?</code>", "CODE", text),
    )
    for found in HTML_TEXT.finditer(text):
        words = html.unescape(found[1] or found[2])
        if len(words.split()) > 1:
            yield Paragraph(file, text.count("\n", 0, found.start()) + 1, " ".join(words.split()))


def of_strings(file: str, text: str, strings: re.Pattern[str]) -> Iterator[Paragraph]:
    """The strings of a program that look like sentences: those of three words or more."""
    for found in strings.finditer(text):
        words = next(group for group in found.groups() if group is not None)
        words = re.sub(
            r"\\\n", "", re.sub(r"\$\{[^{}]*(\{[^{}]*\}[^{}]*)*\}", "CODE", words)
        ).replace("\\n", "\n")
        line = text.count("\n", 0, found.start()) + 1
        for part in re.split(r"\nExample:\n", words)[0].split("\n\n"):
            if len(part.split()) > 2 and "=>" not in part:
                yield Paragraph(file, line, plain(" ".join(part.split())))


def of_javascript(file: str, text: str) -> Iterator[Paragraph]:
    """The strings of a module, without its comments."""
    text = re.sub(r"/\*.*?\*/", lambda gone: "\n" * gone[0].count("\n"), text, flags=re.S)
    return of_strings(file, re.sub(r"(^|\s)//[^\n]*", "", text), JS_STRING)


def of_rust(file: str, text: str) -> Iterator[Paragraph]:
    """The strings of a source file, without its comments."""
    return of_strings(file, re.sub(r"//[^\n]*", "", text), RUST_STRING)


def paragraphs(top: pathlib.Path, file: str) -> list[Paragraph]:
    """The paragraphs that a person reads in a file."""
    text = (top / file).read_text()
    kinds = {".md": of_markdown, ".html": of_html, ".js": of_javascript, ".rt": of_rust}
    return list(kinds[pathlib.Path(file).suffix](file, text))


def sentences(text: str) -> list[str]:
    """The sentences of a paragraph."""
    return re.split(r"(?<=[.!?])[\"')\]]*\s+(?=[\"'(\[]*[A-Z0-9])", text)
