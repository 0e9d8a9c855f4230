"""The replies of a server, by the tables of docs/formats.md."""
import json
import re
from typing import Any

REASONS = {
    200: "OK",
    400: "Bad Request",
    401: "Unauthorized",
    403: "Forbidden",
    404: "Not Found",
    405: "Method Not Allowed",
    409: "Conflict",
    413: "Payload Too Large",
    422: "Unprocessable Entity",
    431: "Request Header Fields Too Large",
    501: "Not Implemented",
}

# The codes of each status, and what their pages have in addition to the code.
CODES: dict[int, dict[str, str]] = {
    400: {"bad_head": "", "bad_length": "", "cut_short": "", "bad_json": ""},
    401: {"token": ""},
    403: {"role": ""},
    404: {"no_page": "", "no_round": ""},
    405: {"method": ""},
    409: {"ended": "", "wrong_round": "round"},
    413: {"long_body": ""},
    422: {
        "shape": "",
        "too_many": "",
        "over_activity": "",
        "increment": "",
        "too_many_ties": "",
        **dict.fromkeys(
            [
                "unknown_product",
                "price_range",
                "over_cap",
                "price_order",
                "mixed_direction",
                "keep_price",
            ],
            "place",
        ),
        **dict.fromkeys(["tie_range", "tie_repeated", "price_limit"], "place"),
    },
    431: {"long_head": ""},
    501: {"coding": ""},
}

# The keys of the pages with status 200.
PAGES: dict[tuple[str, ...], str] = {
    ("ended", "round", "version"): "status",
    ("products", "requirement", "version"): "products",
    ("limit", "products", "requirement", "version"): "products",
    ("ended", "products", "round"): "sheet",
    ("activity", "demands", "eligibility", "ended", "name", "round"): "account",
    ("bids", "round"): "bids",
    ("accepted", "bids", "round"): "accepted",
    ("activity", "demands", "eligibility", "round"): "slip",
    ("closed", "ended"): "closed",
    ("bidders", "ended", "round"): "results",
}

ALLOWED = ["GET", "GET, PUT", "POST"]

HEAD = re.compile(
    rb"HTTP/1\.1 (\d{3}) ([A-Za-z ]+)\r\n(?:allow: ([A-Z, ]+)\r\n)?connection: close\r\n"
    rb"content-length: (\d+)\r\ncontent-type: application/json\r\n"
    rb"(www-authenticate: Bearer\r\n)?\r\n"
)


def code_of(page: dict[str, Any], status: int) -> str | None:
    """The code of a refusal's page, or None if it is not in the table."""
    for code, beside in CODES.get(status, {}).items():
        if (
            page.get("code") == code
            and set(page) == {"code", "status", *([beside] if beside else [])}
            and page["status"] == status
        ):
            return code
    return None


def is_framed(head: re.Match[bytes], length: int) -> bool:
    """Whether the parts of a head fit its status, and a page of this length."""
    status, allowed = int(head[1]), (head[3] or b"").decode()
    return (
        REASONS.get(status) == head[2].decode()
        and int(head[4]) == length
        and (status == 401) == bool(head[5])
        and (allowed in ALLOWED if status == 405 else not allowed)
    )


def answer_of(reply: bytes) -> str | None:
    """The word for a reply, or None if it is not in the table."""
    head = HEAD.match(reply)
    if not head:
        return None
    status, text = int(head[1]), reply[head.end() :]
    try:
        page = json.loads(text)
    except ValueError:
        return None
    is_compact = json.dumps(page, separators=(",", ":"), sort_keys=True).encode() == text
    if not (is_framed(head, len(text)) and is_compact and isinstance(page, dict)):
        return None
    word = PAGES.get(tuple(sorted(page))) if status == 200 else code_of(page, status)
    return f"{status} {word}" if word else None
