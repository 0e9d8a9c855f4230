"""Wrong records of servers on two files: one call is missing, early, late, or extra."""
from collections.abc import Iterator
from dataclasses import replace

from tests.crash.altered import Calls, moved, with_twice, without
from tests.crash.order import SYNCS
from tests.crash.record import Call, Outcome, Recorded

EACH_FILE = (False, True)


def places(calls: Calls, is_mirror: bool, *names: str) -> list[int]:
    """The indices of these calls on a file."""
    return [
        at for at, call in enumerate(calls) if call.is_mirror == is_mirror and call.name in names
    ]


def without_all(calls: Calls, gone: list[int]) -> Calls:
    """The calls without those at these indices."""
    return [call for at, call in enumerate(calls) if at not in gone]


def exchanged(calls: Calls, one: int, other: int) -> Calls:
    """The calls with two of them exchanged."""
    changed = list(calls)
    changed[one], changed[other] = calls[other], calls[one]
    return changed


def altered_pair_starts(calls: Calls, is_old: bool) -> Iterator[tuple[str, Calls]]:
    """Yields the calls of a start with one of them wrong, and what is wrong."""
    cuts = [at for at, call in enumerate(calls) if call.name == "ftruncate"]
    for is_mirror in EACH_FILE:
        synced = places(calls, is_mirror, *SYNCS)
        changed = places(calls, is_mirror, "write", "ftruncate")[-1]
        late = [at for at in synced if at > changed]
        yield "a file is not synced before ready", without_all(calls, late)
        if is_old:
            early = [at for at in synced if at < cuts[0]]
            yield "a torn record is cut off before a file is synced", without_all(calls, early)
        named = places(calls, is_mirror, "folder")[-1]
        yield "a folder is not synced", without(calls, named)
        yield "a folder is synced twice", with_twice(calls, named)
    for at in [at for at, call in enumerate(calls) if call.name == "write"]:
        other = replace(calls[at], content=calls[at].content[:-1] + b"?")
        yield "a start writes other bytes", calls[:at] + [other] + calls[at + 1 :]


def altered_pair_exchanges(calls: Calls, outcome: Outcome) -> Iterator[tuple[str, Calls]]:
    """Yields the calls for a request of this outcome with one of them wrong, and what is wrong."""
    if outcome in (Outcome.PAGE, Outcome.REFUSED):
        for is_mirror in EACH_FILE:
            yield "a sync for what is not logged", [Call("fdatasync", is_mirror=is_mirror), *calls]
            write = Call("write", 0, b"text", is_mirror)
            yield "a write for what is not logged", [write, *calls]
    if outcome is not Outcome.LOGGED:
        return
    replied = places(calls, False, "send")[-1]
    for is_mirror in EACH_FILE:
        (synced,), written = (
            places(calls, is_mirror, *SYNCS),
            places(calls, is_mirror, "write"),
        )
        yield "no sync of a text on a file", without(calls, synced)
        yield "a text is synced after its reply begins", moved(calls, synced, replied)
        yield "a text is synced twice on a file", with_twice(calls, synced)
        yield "a write of a text is missing on a file", without(calls, written[-1])
        yield "a text is synced before its last write", moved(calls, synced, written[-1])
    for name, what in (("write", "written"), ("fdatasync", "synced")):
        one, other = (places(calls, is_mirror, name)[-1] for is_mirror in EACH_FILE)
        yield f"the second file is {what} first", exchanged(calls, one, other)


def altered_pair(generations: list[Recorded]) -> Iterator[tuple[str, list[Recorded]]]:
    """Yields records with one wrong start or exchange, each with what is wrong in it."""
    for number, generation in enumerate(generations):
        calls = generation.calls
        accepts = [at for at, call in enumerate(calls) if call.name == "accept"] + [len(calls)]
        parts = [(0, accepts[0], altered_pair_starts(calls[: accepts[0]], number > 0))]
        for request, accept, end in zip(generation.requests, accepts, accepts[1:]):
            wrong = altered_pair_exchanges(calls[accept + 1 : end], request.outcome)
            parts.append((accept + 1, end, wrong))
        for begin, end, changes in parts:
            for name, changed in changes:
                wrong_one = replace(generation, calls=calls[:begin] + changed + calls[end:])
                yield name, generations[:number] + [wrong_one] + generations[number + 1 :]
