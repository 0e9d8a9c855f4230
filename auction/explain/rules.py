"""What the program refuses in a document of the right form, because a schema cannot say it."""
from collections.abc import Callable, Iterable, Iterator
from typing import Any

from auction.explain.reading import Path

Fault = tuple[Path, str]
Named = tuple[Path, str]


def shown(path: Path) -> str:
    """A path as the errors show it, such as `.products[0].name`."""
    return "".join(f"[{step}]" if type(step) is int else f".{step}" for step in path) or "."


def repeated(named: Iterable[Named]) -> Iterator[Fault]:
    """Finds a name or a token that a part before already has."""
    seen: dict[str, Path] = {}
    for path, text in named:
        if seen.setdefault(text, path) != path:
            yield path, f"{text!r} is already at {shown(seen[text])}"


def counted(rows: list[Any], wanted: list[Any], what: str, path: Path) -> Iterator[Fault]:
    """Finds another count of rows than the set-up has products, or bidders."""
    if len(rows) != len(wanted):
        yield path, f"{len(rows)} entries; expected {len(wanted)}, one for each of the {what}"


def setup_faults(setup: Any, path: Path = ()) -> Iterator[Fault]:
    """Finds caps above the supply, and what is given twice."""

    def named(key: str, name: str) -> Iterator[Named]:
        return (((*path, key, number, name), one[name]) for number, one in enumerate(setup[key]))

    for number, product in enumerate(setup["products"]):
        if product["cap"] > product["supply"]:
            words = f"{product['cap']} exceeds the supply of {product['supply']}"
            yield (*path, "products", number, "cap"), words
    yield from repeated(named("products", "name"))
    yield from repeated(named("bidders", "name"))
    yield from repeated([((*path, "operator"), setup["operator"]), *named("bidders", "token")])


def opening_faults(opening: Any) -> Iterator[Fault]:
    """Finds rows of another length, and demands that do not fit the set-up."""
    setup, rows = opening["setup"], opening["demands"]
    yield from setup_faults(setup, ("setup",))
    yield from counted(rows, setup["bidders"], "bidders", ("demands",))
    for number, (row, bidder) in enumerate(zip(rows, setup["bidders"])):
        path = ("demands", number)
        yield from counted(row, setup["products"], "products", path)
        demands = list(zip(row, setup["products"]))
        for place, (demand, product) in enumerate(demands):
            if demand > product["cap"]:
                yield (*path, place), f"{demand} exceeds the cap of {product['cap']}"
        activity = sum(demand * product["units"] for demand, product in demands)
        if activity > bidder["eligibility"]:
            most = bidder["eligibility"]
            yield path, f"an activity of {activity} exceeds the bidder's eligibility of {most}"


def replay_faults(replay: Any) -> Iterator[Fault]:
    """Finds lists of another length than the set-up requires, and limits that do not fit it."""
    setup, scripts = replay["setup"], replay["scripts"]
    yield from setup_faults(setup, ("setup",))
    yield from counted(scripts, setup["bidders"], "bidders", ("scripts",))
    for number, script in enumerate(scripts):
        if script["kind"] == "sincere":
            path = ("scripts", number, "limits")
            yield from counted(script["limits"], setup["products"], "products", path)
            for place, (limits, product) in enumerate(zip(script["limits"], setup["products"])):
                yield from limit_faults(limits, product["cap"], (*path, place))


def limit_faults(limits: list[int], cap: int, path: Path) -> Iterator[Fault]:
    """Finds more limits for a product than its cap, and limits that rise."""
    if len(limits) > cap:
        yield path, f"{len(limits)} limits exceed the cap of {cap}"
    for step, (before, limit) in enumerate(zip(limits, limits[1:]), 1):
        if limit > before:
            yield (*path, step), f"{limit} exceeds the limit before it, {before}"


def closing_faults(closing: Any) -> Iterator[Fault]:
    """Finds pairs of a bidder and a product that have a tie-breaking number twice."""
    seen: dict[tuple[int, int], int] = {}
    for number, (bidder, product, _) in enumerate(closing["ties"]):
        before = seen.setdefault((bidder, product), number)
        if before != number:
            words = f"bidder {bidder} and product {product} are already at .ties[{before}]"
            yield ("ties", number), words


def sheet_faults(_: Any) -> Iterator[Fault]:
    """Finds nothing: only an auction refuses a sheet of the right form."""
    return iter(())


FAULTS: dict[str, Callable[[Any], Iterator[Fault]]] = {
    "setup": setup_faults,
    "opening": opening_faults,
    "replay": replay_faults,
    "sheet": sheet_faults,
    "closing": closing_faults,
}
