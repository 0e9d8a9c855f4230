"""Checks each call that a server makes on the two files of its journal, and its order.

At a start, both files get the same bytes, and all are synced, before it is ready. Each accepted
request is synced once on the first file and then once on the second, before its reply begins. No
file is truncated before both are synced, so that no crash leaves less than was synced.
"""
import hashlib
from dataclasses import dataclass, field

from tests.crash.order import CHANGES, SYNCS, exchanges_of
from tests.crash.record import Call, Outcome, Recorded, Request
from tests.lib.journals import FRONT, HEAD, head_of, record_of, whole_texts_of


@dataclass
class Disks:
    """The bytes of both files, and how many syncs each has had since it last changed."""

    contents: list[bytes] = field(default_factory=lambda: [b"", b""])
    syncs: list[int] = field(default_factory=lambda: [0, 0])

    def take(self, call: Call) -> None:
        """Does a call."""
        which, content = int(call.is_mirror), self.contents[call.is_mirror]
        if call.name in SYNCS:
            self.syncs[which] += 1
        if call.name in ("write", "ftruncate"):
            self.syncs[which] = 0
            is_write = call.name == "write"
            self.contents[which] = content + call.content if is_write else content[: call.number]

    def are_synced(self) -> bool:
        """Whether all bytes of both files are synced."""
        return all(count > 0 or not content for count, content in zip(self.syncs, self.contents))


def fault_of_pair_start(calls: list[Call], disks: Disks, document: bytes) -> str | None:
    """What is wrong with the calls of a start, up to `ready`. The disks take them."""
    disks.syncs, printed, folders = [0, 0], b"", [0, 0]
    wanted = max(disks.contents, key=len) or head_of(document)
    is_new = not any(disks.contents)
    for call in calls:
        content = disks.contents[call.is_mirror]
        if call.name == "write" and call.number != len(content):
            return "a start writes before the end of a file"
        if call.name == "write" and not wanted.startswith(content + call.content):
            return "a start writes what is not in the other file, and no head"
        if call.name == "ftruncate" and not disks.are_synced():
            return "a file is truncated before both are synced"
        folders[call.is_mirror] += call.name == "folder"
        printed += call.content if call.name == "print" else b""
        if b"ready" in printed:
            return fault_of_pair_ready(disks, folders, is_new, document)
        disks.take(call)
    return "it is never ready"


def fault_of_pair_ready(
    disks: Disks, folders: list[int], is_new: bool, document: bytes
) -> str | None:
    """What is wrong at `ready`, after these counts of syncs of the two folders."""
    one, other = disks.contents
    if not disks.are_synced():
        return "it is ready before both files are synced"
    if one != other:
        return "it is ready with two files that differ"
    if size_of_whole(document, one) != len(one):
        return "it is ready with a torn record"
    if folders != [1, 1]:
        return f"it is ready after {folders} syncs of the folders"
    if is_new and disks.syncs != [1, 1]:
        return f"it is ready after {disks.syncs} syncs of the heads"
    return None


def size_of_whole(document: bytes, content: bytes) -> int:
    """The length of a file without a torn record."""
    return HEAD + sum(FRONT + len(text) for text, _digest in whole_texts_of(document, content))


def fault_of_pair_exchange(
    calls: list[Call], request: Request, record: bytes, size: int
) -> str | None:
    """What is wrong with the calls of one connection, by its record and the journal's length."""
    changes = [call for call in calls if call.name in CHANGES]
    if request.outcome in (Outcome.REFUSED, Outcome.PAGE):
        return f"a request that is not logged calls {changes[0].name}" if changes else None
    if fault := fault_of_order(changes, size):
        return fault
    one, other = (written_in(changes, is_mirror) for is_mirror in (False, True))
    if request.outcome is Outcome.NO_REPLY:
        is_cut_short = record.startswith(one) and one.startswith(other)
        is_silent = all(call.name != "send" for call in calls)
        return None if is_cut_short and is_silent else "a text that failed has a reply"
    if (one, other) != (record, record):
        return "what is written is not the record of the text, twice"
    replied = next(place for place, call in enumerate(calls) if call.name == "send")
    for is_mirror in (False, True):
        own = [(at, call) for at, call in enumerate(calls) if on(call, is_mirror)]
        if sum(call.name in SYNCS for _at, call in own) != 1 or own[-1][1].name not in SYNCS:
            return "a text has not one sync on each file after its last write"
        if own[-1][0] > replied:
            return "a reply begins before its text is synced on both files"
    return None


def on(call: Call, is_mirror: bool) -> bool:
    """Whether a call changes or syncs this file."""
    return call.name in CHANGES and call.is_mirror == is_mirror


def written_in(calls: list[Call], is_mirror: bool) -> bytes:
    """What these calls write to one of the files."""
    return b"".join(call.content for call in calls if on(call, is_mirror))


def fault_of_order(changes: list[Call], size: int) -> str | None:
    """Whether a write or a sync of the second file comes before that of the first."""
    sizes, syncs = [size, size], [0, 0]
    for call in changes:
        if call.name == "write" and call.number != sizes[call.is_mirror]:
            return "a text is not written at the end of a file"
        if call.name not in ("write", *SYNCS):
            return f"a request calls {call.name}"
        sizes[call.is_mirror] += len(call.content)
        syncs[call.is_mirror] += call.name in SYNCS
        if sizes[1] > sizes[0] or syncs[1] > syncs[0]:
            return "the second file is ahead of the first"
        if syncs[0] and sizes[0] != sizes[1]:
            return "the first file is synced before both are written"
    return None


def fault_in_pair(generations: list[Recorded], document: bytes) -> str | None:
    """What is wrong with the calls of all generations of a journal in two files, or None."""
    disks = Disks()
    for generation in generations:
        start, exchanges = exchanges_of(generation.calls)
        if fault := fault_of_pair_start(start, disks, document):
            return fault
        if len(exchanges) != len(generation.requests):
            return f"{len(exchanges)} connections for {len(generation.requests)} requests"
        for request, calls in zip(generation.requests, exchanges):
            content = disks.contents[0]
            record = record_of(last_digest(document, content), request.text)
            if fault := fault_of_pair_exchange(calls, request, record, len(content)):
                return fault
            for call in calls:
                disks.take(call)
    return None


def last_digest(document: bytes, content: bytes) -> bytes:
    """The digest of the last whole request in a file, or that of the set-up."""
    digest = hashlib.sha256(document).digest()
    for _text, found in whole_texts_of(document, content):
        digest = bytes.fromhex(found)
    return digest
