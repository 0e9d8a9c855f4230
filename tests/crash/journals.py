"""A journal of ten requests."""
import hashlib
import random
from dataclasses import dataclass
from pathlib import Path

from tests.crash.auction import Auction
from tests.crash.requests import is_accepted, requests
from tests.lib.http import reply_to
from tests.lib.journals import FRONT, HEAD, texts_of


@dataclass(frozen=True)
class Ten:
    """A journal of ten requests.

    It has where its head and each record end, and the digests of the set-up and of each request.
    """

    content: bytes
    ends: list[int]
    digests: list[str]

    @property
    def end(self) -> int:
        return self.ends[10]

    @property
    def last_line(self) -> str:
        """The line that a start and `audit` print of it."""
        return f"journal 10 {self.digests[10]}"


def journal_of_ten(auction: Auction, journal: Path) -> Ten:
    """Makes a server log ten requests. Returns their journal."""
    sent = []
    with auction.server(journal) as server:
        for text in requests(random.Random(105)):
            if is_accepted(reply_to(server.port, text)) and not text.startswith(b"GET"):
                sent.append(text)
            if len(sent) == 10:
                break
    document, content = auction.setup.read_bytes(), journal.read_bytes()
    found = texts_of(document, content)
    assert [text for text, _digest in found] == sent
    ends = [HEAD]
    for text in sent:
        ends.append(ends[-1] + FRONT + len(text))
    return Ten(
        content, ends, [hashlib.sha256(document).hexdigest(), *(hex for _text, hex in found)]
    )
