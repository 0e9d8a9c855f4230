"""`clock_auction audit` on a journal."""
import pathlib

import pytest

from tests.recount.judged import Audit, Printed, by_audit
from tests.recount.spoiled import Case


@pytest.fixture
def audit(program: pathlib.Path, tmp_path: pathlib.Path) -> Audit:
    """What `clock_auction audit` prints of a case."""
    setup, journal = tmp_path / "setup.json", tmp_path / "journal"

    def run(case: Case) -> Printed:
        setup.write_bytes(case.document)
        journal.write_bytes(case.journal)
        return by_audit(program, setup, journal)

    return run
