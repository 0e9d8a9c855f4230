"""Where things are in this repository."""
import os
import pathlib
import shutil
import subprocess
import sys
from typing import Any

TOP = pathlib.Path(__file__).resolve().parents[2]
EXAMPLES = TOP / "examples"
BUILT = TOP / "crates" / "clock_auction" / "out" / "clock_auction"
AUCTION = TOP / "auction" / "bin" / "auction"

# What another test may be writing while a folder of this repository is copied.
CHANGING = shutil.ignore_patterns("__pycache__", "out", ".openapi.json.*", "openapi.json")

# The folders of Debian's commands, some of which only root has on the path.
PATHS = f"{os.environ['PATH']}:/usr/sbin"


def auction(*words: Any, **options: Any) -> subprocess.CompletedProcess[str]:
    """Runs the command `auction` with these words. Returns its status, output, and errors."""
    command = [sys.executable, str(AUCTION), *map(str, words)]
    usual: dict[str, Any] = {"capture_output": True, "text": True, "timeout": 60}
    return subprocess.run(command, **{**usual, **options})
