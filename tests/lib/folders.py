"""Folders of tests that other users of the machine can enter, such as nginx's workers."""
import contextlib
import pathlib
import tempfile
from collections.abc import Iterator


@contextlib.contextmanager
def open_folder() -> Iterator[pathlib.Path]:
    """A folder that other users can enter, which they cannot with pytest's own."""
    with tempfile.TemporaryDirectory(prefix="auction-") as name:
        folder = pathlib.Path(name)
        folder.chmod(0o755)
        yield folder
