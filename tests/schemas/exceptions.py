"""What the program refuses and a schema cannot say, in the words of schemas/README.md."""
import json
import re
from typing import Any

CAP = "a cap above the supply"
ROWS = "rows or lists of another length than the set-up requires"
UNFIT = "a demand, an activity or limits that do not fit the set-up"
POINTED = "a whole number written with a point, an exponent or as -0"
TWICE = "a name or a token given twice"
OTHER_FORM = "a closing of the other version's form"
MOMENT = "a sheet or a closing that does not fit the auction at that moment"
ALL = {CAP, ROWS, UNFIT, POINTED, TWICE, OTHER_FORM, MOMENT}


def no_json(_: str) -> Any:
    """Raises ValueError for NaN and infinity, which are not JSON."""
    raise ValueError


def finite(text: str) -> Any:
    """A number as a float. Raises ValueError if it is too large for one."""
    return no_json(text) if float(text) in (float("inf"), float("-inf")) else float(text)


def value_of(text: bytes) -> Any:
    """A value as the program reads it. Raises ValueError if only other readers accept the text."""
    try:
        value = json.loads(text.decode(), parse_constant=no_json, parse_float=finite)
    except RecursionError:
        raise ValueError from None
    json.dumps(value, ensure_ascii=False).encode()
    return value


def has_pointed(value: Any) -> bool:
    """Whether a value has a whole number with a point or an exponent."""
    if isinstance(value, (dict, list)):
        return any(map(has_pointed, value.values() if isinstance(value, dict) else value))
    return isinstance(value, float) and value.is_integer()


def is_pointed(text: bytes, value: Any) -> bool:
    """Whether a text has a whole number with a point, an exponent, or a minus before zero."""
    return re.search(rb"-0(?![.0-9])", text) is not None or has_pointed(value)


def have_other_length(kind: str, document: Any) -> bool:
    """Whether a document has another count of rows or lists than its set-up requires."""
    bidders, products = (len(document["setup"][key]) for key in ("bidders", "products"))
    if kind == "opening":
        rows = document["demands"]
        return len(rows) != bidders or any(len(row) != products for row in rows)
    scripts = document["scripts"]
    lists = [script["limits"] for script in scripts if "limits" in script]
    return len(scripts) != bidders or any(len(limits) != products for limits in lists)


def exception_of(kind: str, document: Any, text: bytes, fault: str) -> str | None:
    """The words for what a schema cannot say of a refused document, or None."""
    if is_pointed(text, document):
        return POINTED
    if fault.startswith("setup_duplicate"):
        return TWICE
    if cap := re.fullmatch(r"setup_range cap (\d+)", fault):
        product = document.get("setup", document)["products"][int(cap[1])]
        return CAP if product["cap"] > product["supply"] else None
    if fault in ("shape", "scripts") and kind != "setup" and have_other_length(kind, document):
        return ROWS
    return UNFIT if re.match(r"demand |activity|limits ", fault) else None
