"""What the libraries promise, as a list of lines, and what became weaker between two lists."""
import hashlib
import re
from collections import Counter
from collections.abc import Iterable
from pathlib import Path

from tools.specifications import (
    Clause,
    Definition,
    Item,
    Reader,
    exported,
    follow,
    public_files,
    public_roots,
    read_specs,
)

# The text of each promise by its place: the crate, the item, and what is said of it.
Key = tuple[str, str, str]
Surface = dict[Key, str]

EXPORT, DEFINITION, REQUIRES = "exports", "definition", "requires"


def one_line(text: str) -> str:
    """A text without comments, in one line."""
    return " ".join(re.sub(r"//.*|--.*", "", text).split())


def promises_of(crate: Path) -> Iterable[tuple[Key, str]]:
    """The public items of a crate, and their clauses."""
    names = exported(crate)
    for name in names:
        yield (crate.name, EXPORT, name), ""
    seen: Counter[Key] = Counter()
    for _, text, is_public in public_files(crate):
        for event in Reader(text, names, is_public).events():
            key = key_of(crate.name, event)
            seen[key] += 1
            if seen[key] > 1:
                key = (key[0], key[1], f"{key[2]} {seen[key]}")
            yield key, one_line(event.text) if isinstance(event, Clause) else ""


def key_of(crate: str, event: Item | Clause) -> Key:
    """The place of an item, or of a clause of it."""
    if isinstance(event, Item):
        return crate, one_line(f"{event.name}: {event.signature}"), ""
    item = one_line(f"{event.item.name}: {event.item.signature}")
    return crate, item, f"{event.kind} {event.name}".strip()


def definition_entry(definition: Definition) -> tuple[Key, str]:
    """A definition that public clauses reach, by a digest of its text."""
    module = definition.module.removeprefix("Rattle.")
    digest = hashlib.sha256(one_line(definition.text).encode()).hexdigest()[:16]
    return (module.split(".")[0], DEFINITION, f"{module}.{definition.name}"), digest


def surface_of(top: Path) -> Surface:
    """What the crates of a checkout promise."""
    modules = read_specs(top / "crates")
    found: Surface = {}
    for crate in sorted(path.parent for path in (top / "crates").glob("*/src")):
        if crate.name.endswith("_tests") or crate.name == "clock_fixtures":
            continue
        found.update(promises_of(crate))
        reached = follow(public_roots(crate, modules), modules)
        found.update(definition_entry(definition) for definition in reached.values())
    return dict(sorted(found.items()))


# ---- The file


def lines_of(surface: Surface) -> Iterable[str]:
    """The list as its file has it: a crate, its items, and their clauses, each further in."""
    crate = item = ""
    for (key_crate, key_item, detail), text in surface.items():
        if key_crate != crate:
            crate, item = key_crate, ""
            yield crate
        if key_item != item:
            item = key_item
            yield f"  {item}"
        if detail:
            yield f"    {detail} = {text}" if text else f"    {detail}"


def read_surface(text: str) -> Surface:
    """The list in a file."""
    found: Surface = {}
    crate = item = ""
    for line in text.splitlines():
        if line.startswith("    "):
            detail, _, value = line[4:].partition(" = ")
            found[crate, item, detail] = value
        elif line.startswith("  "):
            item = line[2:]
            if item not in (EXPORT, DEFINITION):
                found[crate, item, ""] = ""
        else:
            crate = line
    return found


# ---- The comparison


def weaker_in(old: Surface, new: Surface) -> list[Key]:
    """The places at which the second list may promise less than the first.

    A definition that no clause reaches any more is no loss: a clause that named it has changed.
    """
    unused = {key for key in old if key[1] == DEFINITION and key not in new}
    lost = [key for key in old if not is_premise(key) and new.get(key) != old[key]]
    lost = [key for key in lost if key not in unused]
    more = [key for key in new if is_premise(key) and old.get(key) != new[key]]
    return sorted(lost + [key for key in more if (key[0], key[1], "") in old])


def is_premise(key: Key) -> bool:
    """Whether it is something that callers must show."""
    return key[2].split(" ")[0] == REQUIRES


def is_named(key: Key, decisions: str) -> bool:
    """Whether the decisions name a place, by the last word of its name, between backquotes."""
    crate, item, detail = key
    name = detail.split(".")[-1] if item in (EXPORT, DEFINITION) else item.partition(":: ")[0]
    word = re.split(r"::|: ", name)
    return any(f"`{one}`" in decisions for one in (name, word[0], "::".join(word[:2])) if one)
