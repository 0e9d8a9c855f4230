"""Mock auctions: what marks one, and how one is made from the real set-up.

Each token of a mock auction begins with MOCK, and no token of a real one does. So the set-up, the
journal, and every request say which kind they are of. Its commitment, which everyone sees before
round 1, says it too. Nothing else decides it.
"""
import enum
import json
import re
import secrets
from collections.abc import Iterable
from typing import Any

PREFIX = "MOCK"
TOKEN_BYTES = 16  # of entropy in a token, written as 32 letters after the prefix
WORDS = "Mock auction: nothing is sold."
MARK = "Mock auction. "  # before each announcement
BANNER = f'<p id="mock" class="mock">{WORDS}</p>\n'


class Kind(enum.Enum):
    """Which kind of auction some tokens are of."""

    REAL = "a real auction"
    MOCK = "a mock auction"
    MIXED = "a real auction and of a mock auction"


def is_mock_token(token: str) -> bool:
    """Whether a token is of a mock auction. nginx ignores case in tokens, and so does this."""
    return token.upper().startswith(PREFIX)


def kind_of(tokens: Iterable[str]) -> Kind:
    """The kind of the auction with these tokens."""
    kinds = {is_mock_token(token) for token in tokens}
    if len(kinds) > 1:
        return Kind.MIXED
    return Kind.MOCK if kinds == {True} else Kind.REAL


def kind_of_value(setup: dict[str, Any]) -> Kind:
    """The kind of the auction of a set-up document's value."""
    return kind_of([setup["operator"], *(bidder["token"] for bidder in setup["bidders"])])


def kind_in(is_marked: bool) -> Kind:
    """The kind of the auction of what is marked as a mock's, or is not."""
    return Kind.MOCK if is_marked else Kind.REAL


def mark_of(is_mock: bool) -> dict[str, bool]:
    """What a published JSON object has besides, if it is of a mock auction."""
    return {"mock": True} if is_mock else {}


def disagreement(setup: Kind, committed: bool) -> str | None:
    """Why a set-up of this kind is not of a folder whose commitment says whether it is a mock's.

    None if they are of one kind.
    """
    if setup is Kind.MIXED:
        return (
            f"the set-up has tokens of {setup.value}: those of a mock auction begin with {PREFIX}"
        )
    folder = kind_in(committed)
    if setup is folder:
        return None
    return (
        f"the set-up is of {setup.value}, and public/commitment.json is of {folder.value}: "
        "put the files of the other one away with `auction clear`"
    )


def mock_of(document: bytes) -> bytes:
    """The set-up of a mock auction: the same products and bidders, with fresh tokens."""
    value = json.loads(document)
    for owner, key in ((value, "operator"), *((bidder, "token") for bidder in value["bidders"])):
        owner[key] = PREFIX + secrets.token_hex(TOKEN_BYTES)
    return json.dumps(value, indent=1, ensure_ascii=False).encode() + b"\n"


def marked_page(page: str) -> str:
    """An HTML page that says, before anything else, that it is of a mock auction."""
    page = page.replace("<title>", "<title>MOCK · ", 1)
    return re.sub(r"<body[^>]*>\n", lambda body: body[0] + BANNER, page, count=1)
