"""All checks of a case, in order, and the result of each."""
from collections.abc import Iterator
from typing import NamedTuple

from auction.recount.formats import Refused

from . import announced, auction, folder, increments, promised, windows
from .case import Absent, Case, Failed

OK, FAILED, ABSENT = "ok", "FAILED", "absent"

CHECKS = [
    *auction.FILES,
    promised.COMMITMENT_CHECK,
    *auction.ROUNDS,
    *announced.CHECKS,
    *windows.CHECKS,
    *increments.CHECKS,
    *promised.CHECKS,
    *folder.CHECKS,
]

# What a fault of the set-up or of the journal means, by the first word of its fault line.
MEANINGS = {
    "journal_unknown": "the file is not a journal",
    "journal_setup": "the journal is of another set-up document",
    "journal_damaged": "the file was changed from this byte on",
    "journal_refused": (
        "the rules refuse the request at this byte, so it was changed, or one before it is missing"
    ),
}


class Finding(NamedTuple):
    """The result of one check, with its subject, and words."""

    result: str
    subject: str
    words: str


def findings(case: Case) -> Iterator[Finding]:
    """The results of all checks. One that fails has a finding for each thing that is wrong."""
    for subject, check in CHECKS:
        try:
            yield Finding(OK, subject, check(case))
        except Absent as fault:
            yield Finding(ABSENT, subject, str(fault))
        except Failed as fault:
            yield from (Finding(FAILED, subject, words) for words in fault.args)
        except Refused as fault:
            meaning = MEANINGS.get(str(fault).partition(" ")[0], "the set-up document is refused")
            yield Finding(FAILED, subject, f"{fault}: {meaning}")
        except Exception as fault:  # A file that someone else wrote may have any content.
            yield Finding(FAILED, subject, f"cannot be checked: {fault!r}")
