"""Must-fail edits: wrong bodies that the prover must reject.

An edit is a file with a line `file: PATH`, and then pairs of lines `old: TEXT` and `new: TEXT`.
PATH is in the edit's crate, and has each old text exactly once. `rt ci` tries the edits of
crates/CRATE/must-fail/, and tools/wrong-bodies those of edits/CRATE/.
"""
import pathlib

from tools import documents

IN_GATE = "crates/*/must-fail"
BEFORE_RELEASE = "edits/*"
COMMENTS = ("#", "--", "//")


def edits(top: pathlib.Path, folders: str) -> list[str]:
    """The edits in the folders that match a pattern."""
    return documents.tracked(top, f"{folders}/*.edit")


def crate_of(edit: str) -> str:
    """The crate that an edit changes."""
    return pathlib.PurePath(edit).parts[1]


def fault(top: pathlib.Path, edit: str) -> str | None:
    """Why an edit does not apply to its crate, or "". Each pair applies to the text after the
    earlier pairs.
    """
    texts: dict[str, str] = {}
    path = old = ""
    for line in (top / edit).read_text().splitlines():
        kind, _colon, text = line.partition(":")
        text = text.removeprefix(" ")
        if kind == "file":
            path = text.strip()
            source = top / "crates" / crate_of(edit) / path
            if not source.is_file():
                return f"there is no {source.relative_to(top)}"
            texts.setdefault(path, source.read_text())
        elif kind == "old":
            old = text
        elif kind == "new" and path and old:
            if (count := texts[path].count(old)) != 1:
                return f"its old text is {count} times in {path}: {old.strip()}"
            texts[path] = texts[path].replace(old, text)
        elif line and not line.startswith(COMMENTS):
            return f"a line that is not read: {line}"
    return None if texts else "it names no file"
