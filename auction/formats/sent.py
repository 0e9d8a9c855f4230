"""When and by whom a request was sent, as nginx wrote it into the request."""
import re
from datetime import UTC, datetime

from .journal import line_in

NAME = re.compile("[A-Za-z0-9_-]{1,32}")
SECOND, LAST = re.compile("[0-9]{1,12}"), 253_402_300_799  # the last one of the year 9999


def taken_in(text: bytes) -> str:
    """The second at which nginx had this whole request, in UTC.

    Empty if the request did not come through nginx.
    """
    return time_of(line_in(text, b"taken"))


def time_of(second: str) -> str:
    """A second since 1970 as nginx writes it, in UTC. Empty if it is none."""
    if not SECOND.fullmatch(second) or int(second) > LAST:
        return ""
    return datetime.fromtimestamp(int(second), UTC).strftime("%Y-%m-%dT%H:%M:%SZ")


def person_in(text: bytes) -> str:
    """The person whose token the request had, or an empty text if it was the bidder's own."""
    name = line_in(text, b"by")
    return name if NAME.fullmatch(name) else ""
