"""`auction check-receipts` shows a forged journal, and a file of receipts that was changed."""
import json
import pathlib
from collections.abc import Callable

import pytest

from auction.formats.receipts import Kept, ReceiptsFault, faults, read_kept
from auction.formats.signatures import new_key, public_of, sign
from tests.receipts.auction import ReceiptsAuction

Texts = list[bytes]
WHOLE = "as in the journal: 4 receipts of X, each signed by the committed key\n"
CHANGED = "round 1, sheet 2: it was accepted, and the journal does not"


def test_it_accepts_the_journal_as_it_was(signed: ReceiptsAuction) -> None:
    assert signed.check(signed.kept_file("X")) == (0, WHOLE)


def test_it_takes_the_bidder_s_token_from_the_environment(signed: ReceiptsAuction) -> None:
    assert signed.check(signed.kept_file("Y"), TOKEN="Y" * 16)[0] == 0


def test_a_token_of_another_bidder_shows(signed: ReceiptsAuction) -> None:
    status, words = signed.check(signed.kept_file("Y"), TOKEN="X" * 16)
    assert status == 1
    assert "under several tokens" in words


# ---- Journals that the operator forged, with all digests made again


def replaced(old: bytes, new: bytes) -> Callable[[Texts], Texts]:
    return lambda texts: [text.replace(old, new) for text in texts]


# The requests are X, Y and X in round 1, its closing, and twice the same sheet of X in round 2.
FORGERIES: dict[str, tuple[Callable[[Texts], Texts], str]] = {
    "a-bid-changed": (replaced(b'"quantity":5', b'"quantity":1'), CHANGED),
    "a-sheet-left-out": (
        lambda texts: texts[1:],
        "round 1, sheet 1: it was accepted, and the journal does not have it",
    ),
    "one-of-two-equal-sheets-left-out": (
        lambda texts: texts[:-1],
        "round 2, sheet 2: the journal has it as sheet 1 of round 2",
    ),
    "the-last-requests-cut-off": (
        lambda texts: texts[:4],
        "round 2, sheet 2: it was accepted, and the journal does not have it",
    ),
    "two-sheets-exchanged": (
        lambda texts: [texts[2], texts[1], texts[0], *texts[3:]],
        "round 1, sheet 1: the journal has it as sheet 2 of round 1",
    ),
    "a-sheet-added": (
        lambda texts: [*texts, texts[0].replace(b'"round":1', b'"round":2')],
        "round 2, sheet 3: the journal has it, and there is no receipt",
    ),
    "a-sheet-moved-to-another-round": (
        lambda texts: [texts[0], texts[1], texts[3], texts[2], *texts[4:]],
        "round 1, sheet 2: the journal has it as sheet 1 of round 2",
    ),
    "another-head-of-a-request": (
        replaced(b"content-length: ", b"content-length:  "),
        "the journal does not have it",
    ),
}


@pytest.mark.parametrize(("forge", "words"), FORGERIES.values(), ids=FORGERIES)
def test_receipts_show_a_forged_journal(
    signed: ReceiptsAuction, forge: Callable[[Texts], Texts], words: str
) -> None:
    forged = forge(signed.texts())
    assert forged != signed.texts()
    found = faults(read_kept(signed.kept_file("X")), signed.forged(forged))
    assert words in " ".join(found)


def test_receipts_show_a_journal_of_another_set_up(signed: ReceiptsAuction) -> None:
    other = json.dumps({**json.loads(signed.document), "requirement": 60}).encode()
    found = faults(read_kept(signed.kept_file("X")), signed.forged(setup=other))
    assert found == ["the journal is of another auction than the commitment"]


def test_the_command_fails_on_a_forged_journal(signed: ReceiptsAuction) -> None:
    forge, words = FORGERIES["a-bid-changed"]
    journal = signed.forged(forge(signed.texts()))
    status, printed = signed.check(signed.kept_file("X"), journal)
    assert status == 1
    assert f"FAILED {words}" in printed
    assert "NOT as in the journal" in printed


# ---- Files of receipts in which something was changed


def with_first(**changes: object) -> Callable[[list[str]], list[str]]:
    """Changes values of the first receipt."""

    def change(lines: list[str]) -> list[str]:
        return [lines[0], json.dumps({**json.loads(lines[1]), **changes}), *lines[2:]]

    return change


def with_more_sent(lines: list[str]) -> list[str]:
    """Adds a space to the first sheet that was sent."""
    return with_first(sent=json.loads(lines[1])["sent"] + " ")(lines)


def with_other_key(lines: list[str]) -> list[str]:
    """Changes the last byte of the committed key."""
    commitment = json.loads(lines[0])
    return [json.dumps({**commitment, "key": commitment["key"][:-3] + "AA="}), *lines[1:]]


CHANGES: dict[str, Callable[[list[str]], list[str]]] = {
    "another-signature": with_first(signature="0" * 128),
    "another-round": with_first(round=2),
    "another-number": with_first(sheet=3),
    "another-body": with_first(body="0" * 64),
    "another-sheet-was-sent": with_more_sent,
    "another-key": with_other_key,
    "a-receipt-lost": lambda lines: [lines[0], *lines[2:]],
    "a-receipt-twice": lambda lines: [*lines, lines[1]],
    "no-commitment": lambda lines: lines[1:],
    "no-line": lambda lines: [],
    "no-receipt": lambda lines: [lines[0], "{}"],
}


@pytest.mark.parametrize("change", CHANGES.values(), ids=CHANGES)
def test_a_changed_file_of_receipts_proves_nothing(
    signed: ReceiptsAuction, change: Callable[[list[str]], list[str]]
) -> None:
    file = signed.written("changed.receipts", change(signed.kept_lines("X")))
    try:
        found = faults(read_kept(file), signed.forged())
    except ReceiptsFault:
        return
    assert found


def test_the_command_fails_on_a_file_without_a_receipt(signed: ReceiptsAuction) -> None:
    change = CHANGES["no-receipt"]
    file = signed.written("changed.receipts", change(signed.kept_lines("X")))
    status, words = signed.check(file)
    assert status == 1
    assert words.startswith("FAILED")


# ---- What the bidder did not send


def with_receipts(lines: list[str], change: Callable[[dict[str, object]], object]) -> list[str]:
    """The lines of a file whose receipts are changed."""
    return [lines[0], *(json.dumps(change(json.loads(line))) for line in lines[1:])]


def without_sent(receipt: dict[str, object]) -> dict[str, object]:
    return {key: value for key, value in receipt.items() if key != "sent"}


def test_a_receipt_without_what_was_sent_is_reported(signed: ReceiptsAuction) -> None:
    lines = with_receipts(signed.kept_lines("X"), without_sent)
    status, words = signed.check(signed.written("unsent.receipts", lines))
    assert status == 1
    assert words.count("the file does not say that X sent this sheet") == 4


def test_a_line_of_its_own_says_what_was_sent(signed: ReceiptsAuction) -> None:
    lines = with_receipts(signed.kept_lines("X"), without_sent)
    said = [json.dumps({"sent": sent}) for sent in signed.sent["X"]]
    assert signed.check(signed.written("said.receipts", [*lines, *said])) == (0, WHOLE)


def test_a_sheet_that_was_sent_once_counts_for_one_receipt(signed: ReceiptsAuction) -> None:
    """X sent two equal sheets in round 2. Its file says so of one only."""
    lines = with_receipts(signed.kept_lines("X"), without_sent)
    said = [json.dumps({"sent": sent}) for sent in signed.sent["X"][:-1]]
    status, words = signed.check(signed.written("once.receipts", [*lines, *said]))
    assert status == 1
    assert "round 2, sheet 2: the file does not say that X sent this sheet" in words


def test_a_replaced_sheet_that_is_put_in_again_is_shown(signed: ReceiptsAuction) -> None:
    """X's first sheet of round 1 is in the journal again, byte for byte, after its second."""
    texts = signed.texts()
    forged = signed.forged([*texts[:3], texts[0], *texts[3:]])
    found = faults(read_kept(signed.kept_file("X")), forged)
    assert len(found) == 1
    assert found[0].startswith("round 1, sheet 3: the journal has it, and there is no receipt")


# ---- Files without a receipt


def file_without_receipts(signed: ReceiptsAuction, *lines: str) -> pathlib.Path:
    return signed.written("none.receipts", [signed.kept_lines("X")[0], *lines])


def test_a_file_without_a_receipt_and_a_name_proves_nothing(signed: ReceiptsAuction) -> None:
    status, words = signed.check(file_without_receipts(signed))
    assert status == 1
    assert words.startswith("nothing is known: the file has no receipt")


def test_a_bidder_that_states_that_it_sent_nothing_is_believed(signed: ReceiptsAuction) -> None:
    """Z sent no sheet, and the journal has none in its name."""
    file = file_without_receipts(signed, '{"bidder":"Z"}')
    copy = "--commitment", signed.public / "commitment.json"
    status, words = signed.check_with(file, None, *copy, "--setup", signed.setup_file)
    assert words == "as in the journal: 0 receipts of Z, each signed by the committed key\n"
    assert status == 0


def test_a_sheet_of_a_bidder_that_sent_none_is_shown(signed: ReceiptsAuction) -> None:
    """Y says that it sent nothing, and the journal has a sheet in its name."""
    file = file_without_receipts(signed, '{"bidder":"Y"}')
    status, words = signed.check_with(file, None, "--setup", signed.setup_file)
    assert status == 1
    assert "round 1, sheet 1: the journal has it, and there is no receipt" in words


def test_a_file_that_names_another_bidder_is_shown(signed: ReceiptsAuction) -> None:
    file = signed.written("named.receipts", [*signed.kept_lines("X"), '{"bidder":"Y"}'])
    status, words = signed.check(file)
    assert status == 1
    assert "the file is of Y, and its receipts are of X" in words


def test_a_bidder_that_the_set_up_does_not_have_is_shown(signed: ReceiptsAuction) -> None:
    file = file_without_receipts(signed, '{"bidder":"Q"}')
    status, words = signed.check_with(file, None, "--setup", signed.setup_file)
    assert (status, words) == (1, "FAILED the set-up has no bidder Q\n")


# ---- Whose key


def framed(signed: ReceiptsAuction) -> pathlib.Path:
    """X makes a key and a commitment with it, signs its receipts again, and one of a sheet that was
    never accepted.
    """
    key = new_key()
    first, *lines = map(json.loads, signed.kept_lines("X"))
    claimed = {**lines[-1], "sheet": 3, "text": "0" * 64}
    receipts = [Kept.of(line).receipt for line in (*lines, claimed)]
    pages = [json.loads(one.page(sign(key, one.message()))) for one in receipts]
    said = [{"sent": line} for line in (*signed.sent["X"], signed.sent["X"][-1])]
    values = [{**first, "key": public_of(key)}, *pages, *said]
    return signed.written("framed.receipts", [json.dumps(value) for value in values])


def test_a_bidder_cannot_frame_the_operator_with_a_key_of_its_own(signed: ReceiptsAuction) -> None:
    status, words = signed.check(framed(signed))
    assert status == 1
    assert "its bidder saw another commitment.json" in words
    assert "not signed by the committed key" in words
    assert "it was accepted" not in words


def test_without_a_copy_of_the_commitment_nothing_is_called_proved(
    signed: ReceiptsAuction,
) -> None:
    status, words = signed.check_with(framed(signed))
    assert status == 1
    assert "FAILED" not in words
    assert "unproved round 2, sheet 3: it was accepted, and the journal does not have it" in words
    assert "unknown whose key signed: framed.receipts names it itself" in words


def test_without_a_copy_of_the_commitment_it_says_what_it_cannot_know(
    signed: ReceiptsAuction,
) -> None:
    status, words = signed.check_with(signed.kept_file("X"))
    assert status == 0
    assert words.startswith("unknown whose key signed")
    assert words.endswith(
        "as in the journal: 4 receipts of X, each signed by the key in the file\n"
    )


def test_a_file_with_a_key_twice_is_refused(signed: ReceiptsAuction) -> None:
    """Another reader would see another key."""
    first, *lines = signed.kept_lines("X")
    twice = first.replace('"key":', '"key":"another","key":')
    status, words = signed.check(signed.written("twice.receipts", [twice, *lines]))
    assert status == 1
    assert "is there twice" in words


def test_two_files_of_one_bidder_are_joined_by_what_they_sent(signed: ReceiptsAuction) -> None:
    """Two persons of X: one sent the first sheet, and the other one the rest."""
    first, *lines = signed.kept_lines("X")
    pages = [json.loads(line) for line in lines]
    own = [
        {key: value for key, value in page.items() if number == 0 or key != "sent"}
        for number, page in enumerate(pages)
    ]
    others = [{"sent": page["sent"]} for page in pages[1:]]
    alone = signed.written("alice.receipts", [first, *map(json.dumps, own)])
    assert len(faults(read_kept(alone), signed.forged())) == len(others)
    joined = signed.written("joined.receipts", [first, *map(json.dumps, [*own, *others])])
    assert faults(read_kept(joined), signed.forged()) == []
