"""Faults that a document can have, each with the words of the program, and its place."""
import copy
import json
import re
from typing import Any, NamedTuple

from tests.lib.paths import EXAMPLES
from tests.lib.setups import OPERATOR

Path = tuple[str | int, ...]


def example(name: str) -> bytes:
    """An example of a document."""
    return (EXAMPLES / f"{name}.json").read_bytes()


ONE, SECOND, OPENING, REPLAY = (
    json.loads(example(name))
    for name in ("one_product", "granules_and_increments", "opening", "rehearsal")
)
VALUES = {"one": ("setup", ONE), "second": ("setup", SECOND), "opening": ("opening", OPENING)}
VALUES["replay"] = ("replay", REPLAY)
PRODUCT, BIDDER = ("products", 0), ("bidders", 1)


class Change(NamedTuple):
    """A document, and the path of a part that gets another value."""

    document: str
    path: Path
    value: Any

    @property
    def kind(self) -> str:
        """The kind of the document."""
        return VALUES[self.document][0]

    def text(self, *others: tuple[Path, Any]) -> bytes:
        """The changed document, with further changes, as JSON."""
        document = copy.deepcopy(VALUES[self.document][1])
        for path, value in ((self.path, self.value), *others):
            at = document
            for key in path[:-1]:
                at = at[key]
            at[path[-1]] = value
        return json.dumps(document, indent=1).encode()


class Fault(NamedTuple):
    """A change, the program's words for it, and the error's place if it is elsewhere."""

    change: Change
    words: str
    place: Path | None = None

    @property
    def path(self) -> Path:
        """The path of the part at which the error is."""
        return self.change.path if self.place is None else self.place


FAULTS = [
    Fault(Change("one", ("version",), "1"), "setup_shape"),
    Fault(Change("one", ("version",), 3), "setup_version"),
    Fault(Change("one", ("requirement",), "95"), "setup_shape"),
    Fault(Change("one", ("limit",), 100), "setup_shape"),
    Fault(Change("one", (*PRODUCT, "granule"), 1), "setup_shape"),
    Fault(Change("one", ("requirement",), 49), "setup_range requirement"),
    Fault(Change("one", ("operator",), "short"), "setup_range operator"),
    Fault(Change("one", ("products",), []), "setup_range products"),
    Fault(Change("one", (*PRODUCT, "name"), "a b"), "setup_range name 0"),
    Fault(Change("one", (*PRODUCT, "units"), 0), "setup_range units 0"),
    Fault(Change("one", (*PRODUCT, "supply"), 1001), "setup_range supply 0"),
    Fault(Change("one", (*PRODUCT, "cap"), 3), "setup_range cap 0"),
    Fault(Change("one", (*PRODUCT, "opening"), 0), "setup_range opening 0"),
    Fault(Change("one", ("bidders",), []), "setup_range bidders"),
    Fault(Change("one", (*BIDDER, "name"), "\u00e4"), "setup_range bidder_name 1"),
    Fault(Change("one", (*BIDDER, "token"), "Y-YYYYYYYYYYYYYY"), "setup_range token 1"),
    Fault(Change("one", (*BIDDER, "eligibility"), 10**12 + 1), "setup_range eligibility 1"),
    Fault(Change("one", (*BIDDER, "name"), "X"), "setup_duplicate_name"),
    Fault(Change("one", (*BIDDER, "token"), OPERATOR), "setup_duplicate_token"),
    Fault(Change("second", ("limit",), 141), "setup_range limit"),
    Fault(Change("second", ("products", 1, "granule"), 0), "setup_range granule 1"),
    Fault(Change("opening", ("setup", "requirement"), 101), "setup_range requirement"),
    Fault(Change("opening", ("demands",), [[1]]), "shape"),
    Fault(Change("opening", ("demands", 0, 0), 3), "demand 0 0"),
    Fault(
        Change("opening", ("setup", "bidders", 0, "eligibility"), 1), "activity 0", ("demands", 0)
    ),
    Fault(Change("opening", ("increment",), 51), "increment"),
    Fault(Change("opening", ("setup", *PRODUCT, "opening"), 10**12), "price_limit 0"),
    Fault(Change("replay", ("closings",), {}), "shape"),
    Fault(Change("replay", ("closings", 0), {"increments": [1, 1, 1], "ties": []}), "shape"),
    Fault(Change("replay", ("scripts",), []), "scripts"),
    Fault(Change("replay", ("scripts", 0, "limits"), []), "shape"),
    Fault(
        Change("replay", ("scripts", 3, "limits", 2), [450, 610]),
        "limits 3 2",
        ("scripts", 3, "limits", 2, 1),
    ),
    Fault(
        Change("replay", ("scripts", 2, "sheets", 0, 1, "quantity"), 4),
        "refused 2 1 over_cap",
        ("scripts", 2, "sheets", 0),
    ),
    Fault(
        Change("replay", ("closings", 1, "increment"), 0), "closing 2 increment", ("closings", 1)
    ),
    Fault(Change("replay", ("closings",), [{"increment": 10, "ties": []}]), "closings_spent"),
]

# Values on both sides of each limit.
LIMITS: list[tuple[str, Path, tuple[Any, ...]]] = [
    ("second", ("requirement",), (49, 50, 100, 101)),
    ("second", ("limit",), (99, 100, 140, 141)),
    ("second", (*PRODUCT, "units"), (0, 1, 10**6, 10**6 + 1)),
    ("second", (*PRODUCT, "supply"), (0, 1, 2, 1000, 1001)),
    ("second", (*PRODUCT, "cap"), (0, 1, 2, 3, 1000)),
    ("second", (*PRODUCT, "opening"), (0, 1, 10**12, 10**12 + 1)),
    ("second", (*PRODUCT, "granule"), (0, 1, 10**6, 10**6 + 1)),
    ("second", (*BIDDER, "eligibility"), (0, 10**12, 10**12 + 1, 2**64 - 1, 2**64)),
    ("second", (*PRODUCT, "name"), ("", "a", "a" * 32, "a" * 33, "a\n", "A_-9", "B")),
    ("second", (*BIDDER, "name"), ("", "a", "a" * 32, "a" * 33, "a.b", "A")),
    ("second", (*BIDDER, "token"), ("a" * 15, "a" * 16, "a" * 64, "a" * 65, "a" * 16 + "\n")),
    ("opening", ("increment",), (0, 1, 50, 51)),
    ("opening", ("demands", 0, 0), (0, 2, 3)),
    (
        "replay",
        ("scripts", 3, "limits", 2),
        ([], [610, 610], [610, 450], [450, 610], [1] * 4, [1] * 5),
    ),
]
EDGES = [Change(document, path, value) for document, path, values in LIMITS for value in values]

# A second fault in a document, of which the program reports one.
PAIRS = [
    (Change("replay", ("closings", 0), {"increments": [1, 1, 1], "ties": []}), ("scripts",), []),
    (
        Change("replay", ("closings", 0), {"increments": [1, 1, 1], "ties": []}),
        ("setup", "requirement"),
        1,
    ),
    (Change("replay", ("scripts", 0, "limits"), []), ("scripts", 3, "limits", 2), [1, 2]),
    (Change("replay", ("scripts",), []), ("setup", "version"), 3),
    (Change("opening", ("increment",), 51), ("demands", 0, 0), 3),
    (Change("opening", ("increment",), "x"), ("setup", "version"), 3),
    (Change("opening", ("demands",), [[1]]), ("setup", *PRODUCT, "units"), 0),
    (Change("opening", ("demands", 0, 0), 3), ("setup", "bidders", 0, "eligibility"), 1),
    (Change("one", (*BIDDER, "token"), OPERATOR), (*BIDDER, "name"), "X"),
    (Change("one", (*BIDDER, "name"), "X"), (*BIDDER, "eligibility"), 10**13),
    (Change("one", ("version",), 3), ("operator",), 1),
    (Change("one", (*PRODUCT, "cap"), 0), (*PRODUCT, "supply"), 0),
]


class Mistake(NamedTuple):
    """A mistake that people make in a set-up.

    The pattern is replaced by the text. The program says the words, or nothing, and the error is
    where `begin` begins.
    """

    what: str
    pattern: bytes
    text: bytes
    words: str
    begin: str

    def made(self, whole: bytes) -> bytes:
        """The set-up with this mistake."""
        return re.sub(self.pattern, self.text, whole, count=0 if self.text == b"\r\n" else 1)


MISTAKES = [
    Mistake("a comma too many", rb"\}\s*\]\s*\}\s*$", b"},]}", "setup_not_json", "]"),
    Mistake("a comma too few", rb'"version": *1,', b'"version":1', "setup_not_json", '"'),
    Mistake("a comment", rb"^", b"// mine\n", "setup_not_json", "//"),
    Mistake(
        "thousands parted by a comma", rb'("opening": *)100', rb"\1 1,000", "setup_not_json", "0"
    ),
    Mistake("thousands parted by _", rb'("opening": *)100', rb"\1 1_000", "setup_not_json", "_"),
    Mistake("a byte order mark", rb"^", b"\xef\xbb\xbf", "setup_not_json", "\ufeff"),
    Mistake("a letter of Latin-1", rb'"X"', b'"\xe4"', "setup_not_json", "\xe4"),
    Mistake("nothing", rb"(?s)^.*$", b"", "setup_not_json", ""),
    Mistake("two documents", rb"$", b"{}", "setup_not_json", "{"),
    Mistake("YAML", rb"(?s)^.*$", b"version: 1\n", "setup_not_json", "v"),
    Mistake("a key misspelt", rb'"eligibility"', b'"elegibility"', "setup_shape", "{"),
    Mistake("a key missing", rb'"units": *\d+,', b"", "setup_shape", "{"),
    Mistake("a text for a number", rb'("requirement": *)95', rb'\1"95"', "setup_shape", '"95"'),
    Mistake("half a dollar", rb'("opening": *)100', rb"\g<1>100.5", "setup_shape", "100.5"),
    Mistake("a point", rb'("opening": *)100', rb"\g<1>100.0", "setup_shape", "100.0"),
    Mistake("no bound", rb'("opening": *)100', rb"\1Infinity", "setup_not_json", "Infinity"),
    Mistake("an exponent", rb'("opening": *)100', rb"\g<1>1e2", "setup_shape", "1e2"),
    Mistake("below 0", rb'("opening": *)100', rb"\g<1>-1", "setup_shape", "-1"),
    Mistake("null", rb'("opening": *)100', rb"\1null", "setup_shape", "null"),
    Mistake("version 2 without its keys", rb'("version": *)1', rb"\g<1>2", "setup_shape", "{"),
    Mistake("a version that is none", rb'("version": *)1', rb"\g<1>3", "setup_version", "3"),
    Mistake("line ends of CR LF", rb"\n", b"\r\n", "", ""),
    Mistake("a key twice", rb'"version"', b'"version":1,"version"', "", ""),
]
