"""Checks that a server made each call that its journal needs, in the right order, and no other."""
import hashlib

from tests.crash.record import Call, Outcome, Recorded, Request
from tests.lib.journals import FRONT, HEAD, head_of, record_of

SYNCS = ("fdatasync", "fsync")
CHANGES = ("write", "ftruncate", "folder", *SYNCS)


def exchanges_of(calls: list[Call]) -> tuple[list[Call], list[list[Call]]]:
    """The calls up to the first connection, and those of each connection."""
    places = [place for place, call in enumerate(calls) if call.name == "accept"] + [len(calls)]
    return calls[: places[0]], [calls[one + 1 : other] for one, other in zip(places, places[1:])]


def fault_of_start(calls: list[Call], document: bytes, size: int) -> str | None:
    """What is wrong with the calls of a start, up to `ready`, on a file of this length."""
    is_synced, folders, syncs, printed = size == 0, 0, 0, b""
    for call in calls:
        match call.name:
            case "write":
                if size >= HEAD or call.content != head_of(document):
                    return "a start writes what is not the head of a new journal"
                is_synced, syncs = False, 0
            case "ftruncate":
                if not is_synced:
                    return "the file is truncated before all of it is synced"
                is_synced = False
            case "fdatasync" | "fsync":
                is_synced, syncs = True, syncs + 1
            case "folder":
                folders += 1
            case "print":
                printed += call.content
                if b"ready" in printed:
                    return fault_of_ready(is_synced, folders, syncs if size < HEAD else 1)
    return "it is never ready"


def fault_of_ready(is_synced: bool, folders: int, syncs: int) -> str | None:
    """What is wrong at `ready`, after these counts of syncs of the folder, and of the head."""
    if not is_synced:
        return "it is ready before its file is synced"
    if folders != 1:
        return f"it is ready after {folders} syncs of its folder"
    if syncs != 1:
        return f"it is ready after {syncs} syncs of its head"
    return None


def fault_of_exchange(calls: list[Call], request: Request, record: bytes, size: int) -> str | None:
    """What is wrong with the calls of one connection, by its record and the journal's length."""
    changes = [call for call in calls if call.name in CHANGES]
    if request.outcome in (Outcome.REFUSED, Outcome.PAGE):
        return f"a request that is not logged calls {changes[0].name}" if changes else None
    writes = [call for call in changes if call.name == "write"]
    content = b"".join(call.content for call in writes)
    if not writes or writes[0].number != size:
        return "a text is not written at the end of the journal"
    names = [call.name for call in calls]
    if request.outcome is Outcome.NO_REPLY:
        is_cut_short = record.startswith(content) and changes == writes and "send" not in names
        return (
            None
            if is_cut_short
            else "a text that could not be logged has a sync, a reply, or other bytes"
        )
    if content != record:
        return "what is written is not the record of the text"
    last = changes[-1].name
    if changes[:-1] != writes or last not in SYNCS:
        return "a text has not one sync after its last write"
    if names.index(last) > names.index("send"):
        return "a reply begins before its text is synced"
    return None


def fault_in(generations: list[Recorded], document: bytes) -> str | None:
    """What is wrong with the calls of all generations of a journal, or None."""
    chain, size, torn = hashlib.sha256(document).digest(), 0, 0
    for generation in generations:
        start, exchanges = exchanges_of(generation.calls)
        if fault := fault_of_start(start, document, size + torn):
            return fault
        if len(exchanges) != len(generation.requests):
            return (
                f"{len(exchanges)} connections are accepted for {len(generation.requests)} requests"
            )
        size, torn = max(size, HEAD), 0
        for request, calls in zip(generation.requests, exchanges):
            record = record_of(chain, request.text)
            if fault := fault_of_exchange(calls, request, record, size):
                return fault
            written = sum(len(call.content) for call in calls if call.name == "write")
            if written == len(record):
                chain, size = record[8:FRONT], size + written
            else:
                torn = written
    return None
