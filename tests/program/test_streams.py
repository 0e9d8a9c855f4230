"""Streams that are closed, full, no file, or too long."""
import json
import os
from collections.abc import Iterator
from pathlib import Path
from typing import BinaryIO

import pytest

from tests.lib.paths import TOP
from tests.lib.runs import Run, run
from tests.program.documents import example

SETUP = json.dumps(example("one_product.json"))
MOST_BYTES = 67_108_864
BAD_INPUT = Run(1, "", "fault: input\n")

PRODUCTS = 4_096
# A bidder bids for nothing, so the auction ends with round 1. The report has some 100,000 bytes.
UNBID = json.dumps(
    {
        "closings": [{"increment": 10, "ties": []}],
        "scripts": [{"kind": "literal", "sheets": [[]]}],
        "setup": {
            "version": 1,
            "requirement": 95,
            "operator": "OPERATOROPERATOR",
            "products": [
                {"name": f"P{i}", "units": 1, "supply": 1, "cap": 1, "opening": 100}
                for i in range(PRODUCTS)
            ],
            "bidders": [{"eligibility": 1, "name": "X", "token": "TOKENTOKENTOKENX"}],
        },
    }
)
UNSOLD = (
    "round 1\n"
    + "".join(f"P{i} 100 100 100 - -\n" for i in range(PRODUCTS))
    + "won X "
    + "0 " * PRODUCTS
    + "0\n"
)


@pytest.fixture
def full() -> Iterator[BinaryIO]:
    """A device on which no byte can be written."""
    with open("/dev/full", "wb") as file:
        yield file


def test_an_answer_that_cannot_be_written_is_a_fault(program: Path, full: BinaryIO) -> None:
    assert run(program, document=SETUP, stdout=full) == Run(1, "", "fault: output\n")


def test_a_long_report_is_written_in_pieces(program: Path) -> None:
    assert run(program, "replay", document=UNBID) == Run(0, UNSOLD, "")


def test_a_write_that_fails_after_others_leaves_a_prefix(program: Path) -> None:
    read, write = os.pipe()
    os.set_blocking(write, False)  # so that a write fails once the pipe is full
    with open(read, "rb") as written:
        with open(write, "wb") as pipe:
            assert run(program, "replay", document=UNBID, stdout=pipe) == Run(
                1, "", "fault: output\n"
            )
        prefix = written.read().decode()
    assert prefix and prefix != UNSOLD and UNSOLD.startswith(prefix)


@pytest.mark.parametrize(
    ("words", "document", "status"),
    [([], "{", 1), (["repla"], SETUP, 2)],
    ids=["of-a-fault", "of-invalid-arguments"],
)
def test_an_error_that_cannot_be_written_keeps_the_status(
    program: Path, full: BinaryIO, words: list[str], document: str, status: int
) -> None:
    assert run(program, *words, document=document, stderr=full) == Run(status, "", "")


def test_a_folder_as_input_is_a_fault(program: Path) -> None:
    folder = os.open(TOP, os.O_RDONLY)
    try:
        assert run(program, stdin=folder) == BAD_INPUT
    finally:
        os.close(folder)


def test_a_closed_input_is_a_fault(program: Path) -> None:
    assert run("bash", "-c", f"exec '{program}' <&-") == BAD_INPUT


def test_a_document_of_the_greatest_length_is_read(program: Path) -> None:
    assert run(program, document=b" " * MOST_BYTES) == Run(1, "", "fault: setup_not_json\n")


def test_a_longer_document_is_refused(program: Path) -> None:
    assert run(program, document=b" " * (MOST_BYTES + 1)) == Run(1, "", "fault: long_input\n")
