"""The libraries that are preloaded into the program: one refuses system calls, one records them."""
import os
import subprocess
from dataclasses import dataclass
from pathlib import Path

SOURCES = Path(__file__).parent


@dataclass(frozen=True)
class Shims:
    """Both libraries."""

    refusing: Path
    recording: Path

    @classmethod
    def built_in(cls, folder: Path) -> "Shims":
        """Builds both libraries in a folder."""
        return cls(*(built(name, folder) for name in ("refuse_calls", "record_calls")))

    def refuse(self, file: Path, call: str, at: int = 1, size: int = 0) -> dict[str, str]:
        """An environment that refuses this call on a file, once it has this number of bytes."""
        wanted = {"REFUSE_CALL": call, "REFUSE_AT": str(at), "REFUSE_FILE": str(file)}
        from_size = {"REFUSE_SIZE": str(size)} if size else {}
        return os.environ | wanted | from_size | {"LD_PRELOAD": str(self.refusing)}

    def record(
        self,
        file: Path,
        record: Path,
        refusal: dict[str, str] | None = None,
        mirror: Path | None = None,
    ) -> dict[str, str]:
        """An environment that records the calls on a file in another, except for refused ones.

        It records those on the second file of a journal, too.
        """
        before = refusal or dict(os.environ)
        preloaded = f"{refusal['LD_PRELOAD']}:{self.recording}" if refusal else str(self.recording)
        second = {"RECORD_MIRROR": str(mirror)} if mirror else {}
        return (
            before
            | second
            | {"RECORD_FILE": str(file), "RECORD_TO": str(record), "LD_PRELOAD": preloaded}
        )


def built(name: str, folder: Path) -> Path:
    """Builds a library in a folder."""
    library = folder / f"{name}.so"
    words = [
        "cc",
        "-shared",
        "-fPIC",
        "-O1",
        "-o",
        str(library),
        str(SOURCES / f"{name}.c"),
        "-ldl",
    ]
    subprocess.run(words, check=True)
    return library
