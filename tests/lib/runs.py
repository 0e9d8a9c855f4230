"""Commands that are run to their end."""
import subprocess
from pathlib import Path
from typing import Any, NamedTuple


class Run(NamedTuple):
    """How a command ended: its status, its output, and its errors.

    The bytes of a text that is not UTF-8 can be had again from it.
    """

    status: int
    output: str
    errors: str


def run(*words: str | bytes | Path, document: str | bytes = b"", **options: Any) -> Run:
    """Runs a command with a document as its standard input, unless `stdin` names another."""
    if "stdin" not in options:
        options["input"] = document.encode() if isinstance(document, str) else document
    usual: dict[str, Any] = {"stdout": subprocess.PIPE, "stderr": subprocess.PIPE, "timeout": 60}
    ended = subprocess.run(words, **{**usual, **options})
    output, errors = (stream or b"" for stream in (ended.stdout, ended.stderr))
    return Run(ended.returncode, text_of(output), text_of(errors))


def text_of(output: bytes) -> str:
    """The text of an output, also of one that is not UTF-8."""
    return output.decode(errors="surrogateescape")
