"""What a forger changes: requests, published files, and bidders' files of one auction."""
from collections.abc import Callable

from tests.forgeries.written import Evidence, Forge, Promise, Texts, document_of, sheet, texts_of

TRUE = Promise(document_of())
TEXTS = texts_of(TRUE)
CLOSINGS = [place for place, text in enumerate(TEXTS) if text.startswith(b"POST ")]
FRIEND = sheet("Q", 1, 1, 100)
PUT_IN = sheet("Y", 3, 0, 118)
NOTHING = ""
Change = Callable[[Texts], Texts]
Row = tuple[Forge, str, str]


def without(place: int) -> Change:
    return lambda texts: texts[:place] + texts[place + 1 :]


def with_text(place: int, text: bytes) -> Change:
    return lambda texts: [*texts[:place], text, *texts[place:]]


def swapped(one: int, other: int) -> Change:
    def change(texts: Texts) -> Texts:
        made = list(texts)
        made[one], made[other] = made[other], made[one]
        return made

    return change


def edited(place: int, old: bytes, new: bytes) -> Change:
    def change(texts: Texts) -> Texts:
        assert texts[place].count(old) == 1, texts[place]
        return [*texts[:place], texts[place].replace(old, new), *texts[place + 1 :]]

    return change


def after(change: Change) -> Forge:
    """Changes the journal after the end. A witness has what was published before."""
    return lambda found: found.replace(TRUE, change(TEXTS))


def before(change: Change) -> Forge:
    """Changes requests before the closing. What is published is by the changed ones."""
    return lambda found: found.publish(TRUE, change(TEXTS))


def journal(change: Callable[[bytes], bytes]) -> Forge:
    """Changes the bytes of the journal, and makes no digest again."""

    def forge(found: Evidence) -> None:
        found.journal = change(found.journal)

    return forge


def set_up(old: bytes, new: bytes) -> Forge:
    """Exchanges the set-up, and makes the journal's digests again."""
    other = TRUE.document.replace(old, new, 1)
    assert other != TRUE.document
    return lambda found: found.replace(Promise(other), TEXTS)


def published(name: str, change: Callable[[bytes], bytes]) -> Forge:
    """Changes a published file."""

    def forge(found: Evidence) -> None:
        found.published[name] = change(found.published[name])

    return forge


def value(name: str, **changes: object) -> Forge:
    """Changes values of a published file."""
    return lambda found: found.put(name, {**found.page(name), **changes})


def lines(name: str, change: Callable[[list[dict[str, object]]], object]) -> Forge:
    """Changes a bidder's file."""
    return lambda found: found.files.update({name: change(list(found.files[name]))})


def both(*forges: Forge) -> Forge:
    def forge(found: Evidence) -> None:
        for one in forges:
            one(found)

    return forge


def left_out(*names: str) -> Forge:
    def forge(found: Evidence) -> None:
        for name in names:
            del found.published[name]

    return forge


def honest(found: Evidence) -> None:
    """Nobody forges anything."""


REPLAY = with_text(len(TEXTS) - 1, TEXTS[11])
PUT = with_text(len(TEXTS) - 1, PUT_IN)

DRAWN = Promise(TRUE.document, draw="5 17 33")


def drawn(found: Evidence) -> None:
    """Bidders' files begin before the draw, whose commitment is the same."""
    Evidence.__init__(found, DRAWN, texts_of(DRAWN))


def with_announcement(found: Evidence, key: str, text: str) -> None:
    made = found.page("announcements.json")["announcements"]
    made.append({"key": key, "number": len(made) + 1, "text": text, "time": "2026-12-01T15:00:00Z"})
    found.put("announcements.json", {"announcements": made})


def made_record(found: Evidence) -> None:
    found.make_record()
