"""An auction that is written down without a server: its journal, what is published of it, and the
bidders' files. A forger changes its requests, and everything else is made again by the rules.
"""
import dataclasses
import functools
import hashlib
import json
import pathlib
from collections import Counter
from collections.abc import Callable, Iterable
from typing import Any

from cryptography.hazmat.primitives import serialization
from cryptography.hazmat.primitives.asymmetric.ed25519 import Ed25519PrivateKey

from auction.formats import notices, record, strict
from auction.formats.receipts import Receipt, digest_of
from auction.formats.signatures import public_of, sign
from auction.formats.ties import LENGTH, Commitment, Committed, Draw, seed_of, ties_of
from auction.recount import rules
from auction.verify.auction import page_of
from auction.verify.case import Case
from tests.forgeries.auction import Failing, failing
from tests.lib import setups
from tests.lib.http import compact, text_of
from tests.lib.journals import body_in, journal_of, token_in

BIDDERS = "XYZQ"
RULES = [{"percent": 10}]
Texts = list[bytes]
Lines = list[dict[str, Any]]


def secret_of(number: int) -> bytes:
    """A secret key in PEM that is the same in each run."""
    return Ed25519PrivateKey.from_private_bytes(bytes(32 * [number])).private_bytes(
        serialization.Encoding.PEM,
        serialization.PrivateFormat.PKCS8,
        serialization.NoEncryption(),
    )


KEY, OTHER_KEY = secret_of(1), secret_of(2)
SECRET, OTHER_SECRET = bytes(31) + b"\1", bytes(31) + b"\2"


def document_of(supply: int = 3, cap: int = 2) -> bytes:
    """A set-up of one product and four bidders."""
    bidders = [setups.bidder(name, name * 16, 4) for name in BIDDERS]
    return json.dumps(setups.setup([setups.product("A", supply=supply, cap=cap)], bidders)).encode()


def time_of(number: int, time: str) -> str:
    """A time of the day of a round. Each is open from 14:00 to 14:30, and published at 15:00."""
    return f"2026-12-{number:02}T{time}Z"


def sheet(name: str, number: int, quantity: int, price: int, taken: str = "14:10:00") -> bytes:
    """The request with a bidder's sheet, which nginx took at this time of the round's day, if one
    is given.
    """
    bids = [{"price": price, "product": 0, "quantity": quantity}]
    body = compact({"bids": bids, "round": number})
    lines = [f"taken: {notices.seconds_of(time_of(number, taken))}"] if taken else []
    return text_of("PUT /v1/me/bids", name * 16, body, *lines)


@dataclasses.dataclass(frozen=True)
class Promise:
    """What the operator fixes before round 1, with its secrets."""

    document: bytes
    secret: bytes | None = SECRET
    key: bytes = KEY
    draw: str = ""

    def commitment(self) -> bytes:
        end = None if self.secret is None else seed_of(self.secret, LENGTH, 0)
        chain = None if end is None else Committed(end, LENGTH)
        made = Commitment(digest_of(self.document), chain, public_of(self.key))
        return strict.published(made.value())

    def seed(self, number: int) -> bytes | None:
        return None if self.secret is None else seed_of(self.secret, LENGTH, number)

    def closing(self, number: int, increment: int = 10) -> bytes:
        """The request that closes a round."""
        seed, pairs = self.seed(number), [(bidder, 0) for bidder in range(len(BIDDERS))]
        listed = [] if seed is None or number == 1 else ties_of(seed, self.draw, number, pairs)
        body = compact({"increment": increment, "round": number, "ties": listed})
        return text_of("POST /v1/close", setups.OPERATOR, body)


# Sheets of three rounds. Supply is 3: in round 3 X or Y loses a block, by tie-breaking number. In
# rounds 2 and 3 Y sends a sheet that its next one replaces. Q never bids.
SHEETS = [
    [("X", 2, 100), ("Y", 1, 100), ("Z", 1, 100)],
    [("X", 2, 110), ("Y", 0, 105), ("Z", 1, 110), ("Y", 1, 110)],
    [("X", 1, 115), ("Z", 1, 121), ("Y", 1, 121), ("Y", 0, 115)],
]


def texts_of(promise: Promise, increment: int = 10) -> Texts:
    """The requests of the auction that nobody forged."""
    texts = list[bytes]()
    for number, sheets in enumerate(SHEETS, 1):
        texts += [sheet(name, number, quantity, price) for name, quantity, price in sheets]
        texts.append(promise.closing(number, increment))
    return texts


@functools.cache
def counted_of(document: bytes, journal: bytes) -> rules.Recount:
    return rules.recounted(document, journal)


def payment_of(slip: rules.Slip, last: rules.Round) -> int:
    return sum(blocks * line.posted for blocks, line in zip(slip.demands, last.lines))


def windows() -> list[dict[str, Any]]:
    """The timetable's windows."""
    return [
        {"round": each, "opens": time_of(each, "14:00:00"), "closes": time_of(each, "14:30:00")}
        for each in range(1, 9)
    ]


Said = list[tuple[str, dict[str, Any], str]]


def said_of(promise: Promise, texts: Texts) -> Said:
    """What an honest operator says of these requests: each kind, its words, and its time."""
    counted = counted_of(promise.document, journal_of(promise.document, texts))
    frozen = frozen_of(promise.document, texts)
    said: Said = [
        ("timetable", {"windows": windows()}, time_of(1, "09:00:00")),
        ("increments", {"rules": RULES}, time_of(1, "09:00:00")),
    ]
    if promise.draw:
        said.append(("draw", {"words": promise.draw}, time_of(1, "12:00:00")))
    for number, (closed, digest) in enumerate(zip(counted.auction.rounds, counted.closings), 1):
        said += [
            ("opened", {"round": number, "opens": time_of(number, "14:00:00")}, "14:00:00"),
            ("frozen", {"round": number, "digest": frozen[number - 1]}, "14:30:10"),
            (
                "closed",
                {"round": number, "digest": digest, "increment": closed.increments[0]},
                "14:30:20",
            ),
            ("published", {"round": number}, "15:00:00"),
            ("announcement", announcement_of(number, digest), "15:00:00"),
        ]
        said[-5:] = [(kind, says, time_of(number, time)) for kind, says, time in said[-5:]]
    if counted.auction.ended:
        number = len(counted.auction.rounds)
        said.append(("ended", {"round": number}, time_of(number, "15:00:00")))
    return said


def frozen_of(document: bytes, texts: Texts) -> list[str]:
    """The journal's digest before each closing."""
    digest, found = hashlib.sha256(document).digest(), list[str]()
    for text in texts:
        if text.startswith(b"POST "):
            found.append(digest.hex())
        digest = hashlib.sha256(digest + text).digest()
    return found


def announcement_of(number: int, digest: str) -> dict[str, str]:
    return {
        "key": f"closed-{number}",
        "text": f"Round {number} is closed. Its digest is {digest}.",
    }


def chain_of(promise: Promise, said: Said) -> bytes:
    """The notices that say this, signed by the operator."""
    text = b""
    for kind, says, time in said:
        text = notices.appended(text, promise.commitment(), promise.key, kind, says, time)
    return text


def pages_of(promise: Promise, texts: Texts) -> dict[str, bytes]:
    """All that is published of these requests, by name."""
    counted = counted_of(promise.document, journal_of(promise.document, texts))
    setup, auction = counted.auction.setup, counted.auction
    names, supplies = [one.name for one in setup.products], [one.supply for one in setup.products]
    files: dict[str, Any] = {}
    made = list[dict[str, Any]]()
    for number, (closed, digest) in enumerate(zip(auction.rounds, counted.closings), 1):
        seed = promise.seed(number)
        time = time_of(number, "15:00:00")
        known = {"digest": digest, "seed": seed and seed.hex(), "published": time}
        files[f"rounds/{number}.json"] = {**page_of(names, supplies, number, closed), **known}
        made.append({**announcement_of(number, digest), "number": number, "time": time})
    files["announcements.json"] = {"announcements": made}
    if auction.ended:
        last = auction.rounds[-1]
        won = [
            {"name": one.name, "demands": slip.demands, "pays": payment_of(slip, last)}
            for one, slip in zip(setup.bidders, last.slips)
        ]
        files["winners.json"] = {"bidders": won, "round": len(auction.rounds)}
    pages = {name: strict.published(value) for name, value in files.items()}
    pages["commitment.json"] = promise.commitment()
    pages["notices.jsonl"] = chain_of(promise, said_of(promise, texts))
    if promise.draw:
        draw = Draw.added(promise.commitment(), promise.draw)
        pages["draw.json"] = strict.published(draw.value())
    return pages


def receipts_of(promise: Promise, texts: Iterable[bytes], name: str) -> Lines:
    """The receipts that a bidder gets for its sheets among these requests."""
    number, counts, found = 1, Counter[int](), Lines()
    for text in texts:
        if text.startswith(b"POST "):
            number += 1
        elif token_in(text) == name * 16:
            counts[number] += 1
            one = Receipt.of(digest_of(promise.document), name, number, counts[number], text)
            found.append(json.loads(one.page(sign(promise.key, one.message()))))
    return found


def sent_by(texts: Iterable[bytes], name: str) -> Lines:
    """What a bidder says that it sent."""
    own = [text for text in texts if token_in(text) == name * 16]
    return [{"sent": body_in(text).decode()} for text in own]


def file_of(promise: Promise, texts: Texts, name: str) -> Lines:
    """An honest bidder's file: the commitment, its name, what it sent, and its receipts."""
    first = json.loads(promise.commitment())
    return [first, {"bidder": name}, *sent_by(texts, name), *receipts_of(promise, texts, name)]


class Evidence:
    """What an auditor gets: set-up, journal, what was published or saved, and bidders' files.

    A forger changes any of these before they are written.
    """

    def __init__(self, promise: Promise, texts: Texts) -> None:
        self.document, self.journal = promise.document, journal_of(promise.document, texts)
        self.published = pages_of(promise, texts)
        self.files = {name: file_of(promise, texts, name) for name in BIDDERS}
        self.commitment: bytes | None = None
        self.copies = list[bytes]()

    def replace(self, promise: Promise, texts: Texts) -> None:
        """Exchanges set-up and journal after the end, with all digests made again."""
        self.document, self.journal = promise.document, journal_of(promise.document, texts)

    def publish(self, promise: Promise, texts: Texts) -> None:
        """Exchanges them, and publishes everything again. Bidders have their files."""
        self.replace(promise, texts)
        self.published = pages_of(promise, texts)

    def page(self, name: str) -> Any:
        return json.loads(self.published[name])

    def put(self, name: str, value: object) -> None:
        self.published[name] = strict.published(value)

    def make_record(self) -> None:
        """Makes what is published a record."""
        counted = counted_of(self.document, self.journal)
        made = record.files_of(self.document, self.journal, self.published, counted)
        self.published = {**made, record.INDEX: record.index_of(made)}

    def index_again(self) -> None:
        """Makes the index of a changed record again."""
        files = {name: text for name, text in self.published.items() if name != record.INDEX}
        self.published[record.INDEX] = record.index_of(files)

    def case(self, folder: pathlib.Path, receipts: str = "") -> Case:
        """Writes it all in a folder, and gives some bidders' files to `auction verify`."""
        files = {f"published/{name}": text for name, text in self.published.items()}
        files |= {"setup.json": self.document, "auction.journal": self.journal}
        for name in receipts:
            lines = [json.dumps(line) + "\n" for line in self.files[name]]
            files[f"{name}.jsonl"] = "".join(lines).encode()
        if self.commitment is not None:
            files["copy.json"] = self.commitment
        copies = {f"copy-{number}.jsonl": text for number, text in enumerate(self.copies)}
        files |= copies
        for name, text in files.items():
            (folder / name).parent.mkdir(parents=True, exist_ok=True)
            (folder / name).write_bytes(text)
        (folder / "published").mkdir(exist_ok=True)
        return Case(
            *(folder / name for name in ("setup.json", "auction.journal", "published")),
            *(folder / f"{name}.jsonl" for name in receipts),
            commitment=None if self.commitment is None else folder / "copy.json",
            copies=[folder / name for name in copies],
        )

    def failed(self, folder: pathlib.Path, receipts: str = "") -> Failing:
        return failing(self.case(folder, receipts))


Forge = Callable[[Evidence], None]
