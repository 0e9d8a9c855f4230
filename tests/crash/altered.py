"""Wrong records of servers: right ones in which one call is missing, early, late, or extra."""
from collections.abc import Iterator
from dataclasses import replace

from tests.crash.order import SYNCS
from tests.crash.record import Call, Outcome, Recorded

Calls = list[Call]


def place_of(calls: Calls, *names: str) -> int:
    """The index of the last of these calls."""
    return max(place for place, call in enumerate(calls) if call.name in names)


def without(calls: Calls, place: int) -> Calls:
    """The calls without the one at an index."""
    return calls[:place] + calls[place + 1 :]


def with_twice(calls: Calls, place: int) -> Calls:
    """The calls with the one at an index made twice."""
    return calls[:place] + calls[place : place + 1] + calls[place:]


def moved(calls: Calls, place: int, to: int) -> Calls:
    """The calls with the one at an index moved to another."""
    rest = without(calls, place)
    return rest[:to] + [calls[place]] + rest[to:]


def altered_starts(calls: Calls, is_old: bool) -> Iterator[tuple[str, Calls]]:
    """Yields the calls of a start with one of them wrong, and what is wrong."""
    synced, named = place_of(calls, *SYNCS), place_of(calls, "folder")
    yield "no sync of the journal at a start", without(calls, synced)
    yield "no sync of the folder", without(calls, named)
    yield "the folder is synced after ready", moved(calls, named, len(calls) - 1)
    yield "the folder is synced twice", with_twice(calls, named)
    if not is_old:
        yield "the head is synced twice", with_twice(calls, synced)
        return
    first = min(place for place, call in enumerate(calls) if call.name in SYNCS)
    yield "a torn record is cut off before it is synced", without(calls, first)
    anew = [Call("ftruncate"), Call("write", 0, b"the same bytes"), Call("fdatasync")]
    yield "an old journal is written again", calls[:synced] + anew + calls[synced:]


def altered_exchanges(calls: Calls, outcome: Outcome) -> Iterator[tuple[str, Calls]]:
    """Yields the calls for a request of this outcome with one of them wrong, and what is wrong."""
    if outcome in (Outcome.PAGE, Outcome.REFUSED):
        yield f"a sync for what is not logged: {outcome.value}", [Call("fdatasync"), *calls]
        yield f"a write for what is not logged: {outcome.value}", [
            Call("write", 0, b"text"),
            *calls,
        ]
    if outcome is not Outcome.LOGGED:
        return
    synced, written, replied = (
        place_of(calls, *SYNCS),
        place_of(calls, "write"),
        place_of(calls, "send"),
    )
    yield "no sync of a text", without(calls, synced)
    yield "a text is synced after its reply begins", moved(calls, synced, replied)
    yield "a text is synced before its last write", moved(calls, synced, written)
    yield "a text is synced twice", with_twice(calls, synced)
    yield "a write of a text is missing", without(calls, written)


def altered(generations: list[Recorded]) -> Iterator[tuple[str, list[Recorded]]]:
    """Yields records with one wrong start or exchange, each with what is wrong in it."""
    for number, generation in enumerate(generations):
        calls = generation.calls
        accepts = [place for place, call in enumerate(calls) if call.name == "accept"] + [
            len(calls)
        ]

        def with_calls(begin: int, end: int, wrong: Calls) -> list[Recorded]:
            """The generations with some calls of this one replaced."""
            changed = replace(generation, calls=calls[:begin] + wrong + calls[end:])
            return generations[:number] + [changed] + generations[number + 1 :]

        for name, start in altered_starts(calls[: accepts[0]], number > 0):
            yield name, with_calls(0, accepts[0], start)
        for request, accept, end in zip(generation.requests, accepts, accepts[1:]):
            for name, exchange in altered_exchanges(calls[accept + 1 : end], request.outcome):
                yield name, with_calls(accept + 1, end, exchange)
