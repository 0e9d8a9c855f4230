"""Receipts: what the operator's key signs, a bidder's file of receipts, and their check."""
import dataclasses
import hashlib
import json
import re
from collections import Counter
from collections.abc import Iterator
from pathlib import Path
from typing import Any, NamedTuple, Self

from auction.mock import is_mock_token, kind_in, mark_of
from auction.recount.formats import Refused, Request, request_in

from .journal import body_in, token_in
from .sent import NAME, person_in, taken_in
from .signatures import SIGNATURE, is_signed
from .strict import value_in
from .ties import Commitment, bytes_of, has_keys

TIME = re.compile("[0-9]{4}-[0-9]{2}-[0-9]{2}T[0-9]{2}:[0-9]{2}:[0-9]{2}Z")
KEYS = ("auction", "bidder", "body", "by", "round", "sheet", "signature", "taken", "text")


class ReceiptsFault(ValueError):
    """A bidder's file that has no receipts, or a file that is no journal."""


@dataclasses.dataclass(frozen=True)
class Receipt:
    """An accepted sheet, as the operator signs it.

    `auction` is the digest of the set-up, and `bidder` the bidder's name. The digests are those of
    the body and of the whole request. `sheet` numbers this bidder's sheets of the round, from 1.
    `taken` and `by` are when and by whom it was sent, as nginx wrote it into the request. `mock`
    says that the request had a token of a mock auction.
    """

    auction: str
    bidder: str
    body: str
    by: str
    round: int
    sheet: int
    taken: str
    text: str
    mock: bool = False

    @classmethod
    def of(cls, auction: str, bidder: str, number: int, sheet: int, text: bytes) -> Self:
        """The receipt of a request in the journal."""
        whose = auction, bidder, digest_of(body_in(text)), person_in(text)
        is_mock = is_mock_token(token_in(text) or "")
        return cls(*whose, number, sheet, taken_in(text), digest_of(text), is_mock)

    def message(self) -> bytes:
        """The signed bytes."""
        fields = ("auction", "bidder", "by", "round", "sheet", "taken", "body", "text")
        return message_of("receipt 2", self, fields)

    def page(self, signature: bytes) -> str:
        """The published text."""
        return page_of(self, signature)


@dataclasses.dataclass(frozen=True)
class Refusal:
    """A sheet that nginx refused because no window was open, as the operator signs it.

    `number` counts this bidder's refused sheets, from 1. Of the sheet, only the time is known.
    """

    auction: str
    bidder: str
    by: str
    number: int
    time: str
    mock: bool = False

    def message(self) -> bytes:
        """The signed bytes."""
        return message_of("refusal 1", self, ("auction", "bidder", "by", "number", "time"))

    def page(self, signature: bytes) -> str:
        """The published text."""
        return page_of(self, signature)


def message_of(form: str, one: Receipt | Refusal, fields: tuple[str, ...]) -> bytes:
    """The signed bytes of a form. The first line says whether it is of a mock auction."""
    kind = "mock " if one.mock else ""
    lines = [f"clock_auction {kind}{form}", *(f"{name} {getattr(one, name)}" for name in fields)]
    return "".join(line + "\n" for line in lines).encode("ascii")


def page_of(one: Receipt | Refusal, signature: bytes) -> str:
    """The published text of what is signed."""
    value = {**dataclasses.asdict(one), "signature": signature.hex()}
    del value["mock"]
    return json.dumps({**value, **mark_of(one.mock)}, sort_keys=True, separators=(",", ":")) + "\n"


@dataclasses.dataclass(frozen=True)
class Kept:
    """A receipt as its bidder stores it, with its signature and, if it is known, the body sent."""

    receipt: Receipt
    signature: bytes
    sent: str | None = None

    @classmethod
    def of(cls, value: Any) -> Self:
        """The receipt in a JSON value. Raises ValueError if it has none."""
        sent = value.pop("sent", None) if isinstance(value, dict) else None
        has_keys(value, *KEYS, *mark_of(is_marked(value)))
        if not isinstance(sent, str | None):
            raise ValueError("what was sent")
        for name in ("auction", "body", "text"):
            bytes_of(value[name], 32)
        checked_name(value["bidder"])
        if any(type(value[name]) is not int or value[name] < 1 for name in ("round", "sheet")):
            raise ValueError("a round or a sheet is not a whole number from 1 on")
        if value["by"] != "":
            checked_name(value["by"])
        taken = value["taken"]
        if taken != "" and not (isinstance(taken, str) and TIME.fullmatch(taken)):
            raise ValueError("the time is not of the form 2026-11-30T13:00:00Z")
        signature = bytes_of(value.pop("signature"), SIGNATURE)
        return cls(Receipt(**value), signature, sent)


def is_marked(value: Any) -> bool:
    """Whether a JSON value says that it is of a mock auction. It has no other mark."""
    return isinstance(value, dict) and value.get("mock") is True


def checked_name(name: Any) -> str:
    """The name of a bidder or a person. Raises ValueError for any other value."""
    if not isinstance(name, str) or not NAME.fullmatch(name):
        raise ValueError("a name")
    return name


def digest_of(data: bytes) -> str:
    return hashlib.sha256(data).hexdigest()


# ---- A bidder's file


REFUSED = ("auction", "bidder", "by", "number", "signature", "time")


class KeptRefusal(NamedTuple):
    """A signed refusal as its bidder stores it."""

    refusal: Refusal
    signature: bytes

    @classmethod
    def of(cls, value: Any) -> Self:
        """The refusal in a JSON value. Raises ValueError if it has none."""
        has_keys(value, *REFUSED, *mark_of(is_marked(value)))
        bytes_of(value["auction"], 32)
        checked_name(value["bidder"])
        if value["by"] != "":
            checked_name(value["by"])
        if type(value["number"]) is not int or value["number"] < 1:
            raise ValueError("a refusal's number is not a whole number from 1 on")
        if not isinstance(value["time"], str) or not TIME.fullmatch(value["time"]):
            raise ValueError("the time is not of the form 2026-11-30T13:00:00Z")
        signature = bytes_of(value.pop("signature"), SIGNATURE)
        return cls(Refusal(**value), signature)

    def faults(self, commitment: Commitment) -> list[str]:
        """Why the operator did not sign this."""
        if self.refusal.mock != commitment.mock:
            return [f"refusal {self.refusal.number} is {of_kinds(self.refusal, commitment)}"]
        of_this = self.refusal.auction == commitment.auction
        if of_this and is_signed(commitment.key, self.refusal.message(), self.signature):
            return []
        return [f"refusal {self.refusal.number} is not signed by the committed key"]


class File(NamedTuple):
    """A bidder's file: the commitment as the bidder saw it, its receipts, and its statements.

    `refusals` are of sheets that came too late, which prove nothing of the journal. `bidder` is the
    name that the file states, if it does: then it accounts for all sheets of this
    bidder, even if these are none. `sent` has the digest of each body that the bidder says it sent,
    besides those in receipts.
    """

    commitment: Commitment
    receipts: list[Kept]
    bidder: str | None = None
    sent: Counter[str] = Counter()
    refusals: list[KeptRefusal] = []

    @property
    def name(self) -> str | None:
        """The bidder whose file this is, if it is known."""
        names = {kept.receipt.bidder for kept in self.receipts}
        return self.bidder or min(names, default=None)


def read_kept(path: Path) -> File:
    """Reads a bidder's file: the commitment in its first line, then a receipt in each line.

    A line may also state the bidder, or a body that it sent.
    """
    try:
        first, *lines = path.read_text(encoding="utf-8").removesuffix("\n").split("\n")
        return file_of(Commitment.of(value_in(first)), [value_in(line) for line in lines])
    except (OSError, ValueError) as error:
        raise ReceiptsFault(f"{path} is not a file of receipts: {error}") from error


def file_of(commitment: Commitment, values: list[Any]) -> File:
    """The file with these values in its lines. Raises ValueError for another value."""
    receipts, names, sent = list[Kept](), set[str](), Counter[str]()
    refusals = list[KeptRefusal]()
    for value in values:
        if isinstance(value, dict) and value.keys() == {"bidder"}:
            names.add(checked_name(value["bidder"]))
        elif isinstance(value, dict) and value.keys() == {"sent"}:
            sent[digest_of(str(value["sent"]).encode())] += 1
        elif isinstance(value, dict) and value.keys() - {"mock"} == set(REFUSED):
            refusals.append(KeptRefusal.of(value))
        else:
            receipts.append(Kept.of(value))
    if len(names) > 1:
        raise ValueError("it names two bidders")
    return File(commitment, receipts, min(names, default=None), sent, refusals)


# ---- The journal


class Sheet(NamedTuple):
    """A sheet in the journal. `number` counts its sender's sheets of the round."""

    token: str
    round: int
    number: int
    text: str
    body: str
    taken: str
    by: str


def requests_in(journal: bytes) -> Iterator[tuple[bytes, Request]]:
    """The requests of a whole journal."""
    digest, place = journal[24:56], 56
    if journal[:24] != b"clock_auction journal 1\n" or len(digest) < 32:
        raise ReceiptsFault("the file is not a journal")
    while place < len(journal):
        length = int.from_bytes(journal[place : place + 4], "big")
        text = journal[place + 40 : place + 40 + length]
        digest = hashlib.sha256(digest + text).digest()
        if (
            journal[place : place + 40] != 2 * length.to_bytes(4, "big") + digest
            or len(text) < length
        ):
            raise ReceiptsFault(f"the journal is damaged at byte {place}")
        try:
            yield text, request_in(text)
        except Refused as error:
            raise ReceiptsFault(f"the journal has no request at byte {place}: {error}") from error
        place += 40 + length


def sheets_in(journal: bytes) -> list[Sheet]:
    """The sheets of a journal, in order."""
    sheets, number, counts = list[Sheet](), 1, Counter[str]()
    for text, request in requests_in(journal):
        if request.method == b"PUT":
            counts[request.token] += 1
            parts = digest_of(text), digest_of(request.body), taken_in(text), person_in(text)
            sheets.append(Sheet(request.token, number, counts[request.token], *parts))
        else:
            number, counts = number + 1, Counter()
    return sheets


# ---- The comparison


def faults(
    file: File, journal: bytes, token: str = "", commitment: Commitment | None = None
) -> list[str]:
    """All differences between a bidder's receipts and a journal, in words.

    The token is the bidder's, if it is known. Otherwise the receipts show which sheets are the
    bidder's. `commitment` is a copy that this bidder did not make. Without one, the file's own
    counts, which proves nothing to others: who writes a file can also make a key.
    """
    true = commitment or file.commitment
    kinds = kinds_in_words(file.commitment.mock, true.mock)
    if journal[24:56].hex() != true.auction:
        return [other_auction(journal, true)]
    found = []
    if file.commitment != true:
        found.append(
            "its bidder saw another commitment.json, of another set-up, chain, or key: it was "
            f"shown another one, or changed its file{kinds}"
        )
    judged = [(kept, list(false_words(true, kept))) for kept in file.receipts]
    found += [fault for _, words in judged for fault in words]
    receipts = [kept for kept, words in judged if not words]
    found += [fault for kept in file.refusals for fault in kept.faults(true)]
    found += [fault for kept in receipts for fault in other_sheet(kept)]
    found += unsent(receipts, file.sent) + repeated(file)
    return found + differences(receipts, sheets_in(journal), token)


def kinds_in_words(this: bool, that: bool) -> str:
    """Which one of two is of a mock auction, if not both or none are."""
    if this == that:
        return ""
    return ". It is of a mock auction" if this else ". This one is not of a mock auction"


def other_auction(journal: bytes, commitment: Commitment) -> str:
    """The words for a journal that is of another auction than the commitment."""
    is_mock = any(is_mock_token(sheet.token) for sheet in sheets_in(journal))
    kinds = kinds_in_words(is_mock, commitment.mock)
    return f"the journal is of another auction than the commitment{kinds}"


def differences(receipts: list[Kept], sheets: list[Sheet], token: str) -> list[str]:
    """What differs between the receipts that the operator signed and the sheets of a journal."""
    texts = {kept.receipt.text for kept in receipts}
    tokens = {sheet.token for sheet in sheets if sheet.text in texts}
    found = []
    if token and tokens and token not in tokens:
        found.append(
            "the journal has the sheets under several tokens, or the given token is another "
            "bidder's"
        )
    elif len(tokens) > 1:
        found.append("the journal has the sheets under several tokens")
    tokens = tokens or {token}
    own = [sheet for sheet in sheets if sheet.token in tokens]
    return found + missing(receipts, sheets) + without_receipt(receipts, own)


def place_of(receipt: Receipt) -> str:
    return f"round {receipt.round}, sheet {receipt.sheet}"


def false_words(commitment: Commitment, kept: Kept) -> Iterator[str]:
    """Why the operator did not sign this receipt, so that it proves nothing."""
    receipt = kept.receipt
    where = f"{place_of(receipt)}: the receipt"
    if receipt.mock != commitment.mock:
        yield f"{where} is {of_kinds(receipt, commitment)}"
    if receipt.auction != commitment.auction:
        yield f"{where} is of another auction"
    if not is_signed(commitment.key, receipt.message(), kept.signature):
        yield f"{where} is not signed by the committed key"


def of_kinds(one: Receipt | Refusal, commitment: Commitment) -> str:
    """The words for what is of another kind of auction than the commitment."""
    return f"of {kind_in(one.mock).value}, and the commitment of {kind_in(commitment.mock).value}"


def other_sheet(kept: Kept) -> Iterator[str]:
    """Whether a receipt is for another sheet than its bidder sent."""
    if kept.sent is not None and digest_of(kept.sent.encode()) != kept.receipt.body:
        yield (
            f"{place_of(kept.receipt)}: the receipt is for another sheet than the one that was sent"
        )


def unsent(receipts: list[Kept], sent: Counter[str]) -> list[str]:
    """The receipts of sheets of which the file does not say that their bidder sent them.

    Each statement counts for one receipt, so a sheet that was put in again has none. A receipt
    with what was sent has its statement, and a line of its own may repeat it.
    """
    left, found = sent.copy(), list[str]()
    left.subtract(kept.receipt.body for kept in receipts if kept.sent is not None)
    for receipt in (kept.receipt for kept in receipts if kept.sent is None):
        if left[receipt.body] > 0:
            left[receipt.body] -= 1
            continue
        found.append(
            f"{place_of(receipt)}: the file does not say that {receipt.bidder} sent this sheet. If "
            f"{receipt.bidder} did not send it in another way, it was put in"
        )
    return found


def repeated(file: File) -> list[str]:
    """Receipts of several bidders, or several of one sheet."""
    names = {kept.receipt.bidder for kept in file.receipts}
    found = ["the receipts are of several bidders"] if len(names) > 1 else []
    if len(names) == 1 and file.bidder not in (None, *names):
        found.append(f"the file is of {file.bidder}, and its receipts are of {min(names)}")
    places = Counter(place_of(kept.receipt) for kept in file.receipts)
    return found + [
        f"{place}: there are {count} receipts" for place, count in places.items() if count > 1
    ]


def missing(receipts: list[Kept], sheets: list[Sheet]) -> list[str]:
    """Receipts whose sheet is not in the journal, or is elsewhere or different there."""
    found = []
    for receipt in (kept.receipt for kept in receipts):
        there = [sheet for sheet in sheets if sheet.text == receipt.text]
        places = [(sheet.round, sheet.number) for sheet in there]
        if not there:
            found.append(f"{place_of(receipt)}: it was accepted, and the journal does not have it")
        elif (receipt.round, receipt.sheet) not in places:
            found.append(
                f"{place_of(receipt)}: the journal has it as sheet {places[0][1]} of round "
                f"{places[0][0]}"
            )
        elif there[0].body != receipt.body:
            found.append(f"{place_of(receipt)}: its body in the journal is another one")
        elif (there[0].taken, there[0].by) != (receipt.taken, receipt.by):
            found.append(f"{place_of(receipt)}: its time or person in the journal is another one")
    return found


def without_receipt(receipts: list[Kept], own: list[Sheet]) -> list[str]:
    """The bidder's sheets in the journal that have no receipt.

    A receipt is of one place: the same text again, as another sheet, needs one of its own.
    """
    known = {(kept.receipt.round, kept.receipt.sheet, kept.receipt.text) for kept in receipts}
    return [
        f"round {sheet.round}, sheet {sheet.number}: the journal has it, and there is no receipt. "
        "If you did not submit it, it was put in"
        for sheet in own
        if (sheet.round, sheet.number, sheet.text) not in known
    ]
