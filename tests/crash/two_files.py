"""A journal in two files, each in a folder of its own, as on two disks."""
from pathlib import Path
from typing import Any

from tests.crash.requests import SETUP_TEXT
from tests.lib.http import answer_to
from tests.lib.journals import HEAD, whole_texts_of
from tests.lib.server import Server


class Files:
    """A set-up and the two files of its journal, which servers of the program log in."""

    def __init__(self, program: Path, folder: Path) -> None:
        self.program, self.setup = program, folder / "setup.json"
        self.first, self.second = (folder / name / "auction.journal" for name in ("one", "two"))
        for file in (self.first, self.second):
            file.parent.mkdir(parents=True)
        self.setup.write_bytes(SETUP_TEXT)

    def server(self, **options: Any) -> Server:
        return Server(self.program, self.setup, self.first, mirror=self.second, **options)

    def play(self, texts: list[bytes]) -> None:
        """Sends requests, each of which must be accepted, and kills the server."""
        with self.server().ready() as server:
            for text in texts:
                assert answer_to(server.port, text)[0] == 200
            server.kill()

    def first_line(self) -> str:
        """The first line of a server that starts on both files."""
        with self.server() as server:
            return server.ready().lines[0]

    def other(self, file: Path) -> Path:
        """The file that is not this one."""
        return self.second if file == self.first else self.first

    def contents(self) -> list[bytes]:
        """The bytes of both files. A missing file has none."""
        return [content_of(file) for file in (self.first, self.second)]


def content_of(file: Path) -> bytes:
    """The bytes of a file, which may be missing."""
    return file.read_bytes() if file.exists() else b""


def texts_in(content: bytes) -> list[bytes]:
    """The whole requests in a file."""
    if len(content) < HEAD:
        return []
    return [text for text, _digest in whole_texts_of(SETUP_TEXT, content)]
