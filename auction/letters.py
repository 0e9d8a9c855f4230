"""A letter for each bidder: where to bid, with which token, and whom to call."""
import json
from typing import NamedTuple


class Letter(NamedTuple):
    """A letter, and the bidder that it is for."""

    bidder: str
    text: str


TEXT = """{title}

Bidder:     {name}
Address:    {address}
Token:      {token}
Help desk:  {desk}

Open the address in a browser, and enter the token. The page shows the times of all
rounds, and says what to do.

Keep this letter secret: anyone who has the token can bid in your name. If it is lost,
call the help desk at once.
"""


def letters_of(
    document: bytes, title: str, address: str, desk: str, long: dict[str, str]
) -> list[Letter]:
    """The letters of a set-up. `long` has long names of bidders."""
    found = []
    for bidder in json.loads(document)["bidders"]:
        name = bidder["name"]
        shown = f"{long[name]} ({name})" if name in long else name
        text = TEXT.format(
            title=title, name=shown, address=address, token=bidder["token"], desk=desk
        )
        found.append(Letter(name, text))
    return found
