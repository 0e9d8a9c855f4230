"""The space that the journal still has: on its disk, and in the server's address space."""
import os
from pathlib import Path

LEAST_FREE = 0.1  # of the journal's disk
MOST_BYTES = 2_500_000_000  # a start takes as much memory, and the unit's limit is 4 GB

FULL = "less than a tenth of the journal's disk is free: free space"
LONG = "the journal has more than 2.5 GB: raise LimitAS before the server's next start"


def warning(length: int, free: float) -> str:
    """What to say of a journal of this length on a disk of which this part is free, or ""."""
    words = [FULL] if free < LEAST_FREE else []
    words += [LONG] if length > MOST_BYTES else []
    return "; ".join(words)


def free_part(path: Path) -> float:
    """The free part of the disk of a path; all of it if that is not known."""
    try:
        found = os.statvfs(path)
    except OSError:
        return 1.0
    return found.f_bavail / found.f_blocks if found.f_blocks else 1.0


def length_of(path: Path) -> int:
    """The length of a file; 0 if that is not known."""
    try:
        return path.stat().st_size
    except OSError:
        return 0
