"""Servers in turn on a journal in two files, each of which ends at a refused call, but the last."""
from tests.crash.record import Generation, Outcome, Plan, Request, STATUS
from tests.crash.requests import BIDDERS, closing, next_price, sheet
from tests.lib.http import text_of
from tests.lib.journals import FRONT


def planned_pair() -> list[Generation]:
    """Four generations: at the end of each but the last, the two files have different bytes.

    The first file has half a text more; both have a text, synced in the first file only; the first
    has a whole text, of which the second has half.
    """
    plan, (x, y, z) = Plan(), BIDDERS
    plan.shows(STATUS)
    plan.refuses(text_of("GET /none"), closing(2))
    plan.logs(sheet(x, 1, 100, 1))
    plan.shows(text_of("GET /v1/me/bids", x))
    plan.logs(sheet(y, 1, 100, 2))
    plan.ends_by_write(sheet(z, 1, 100, 2))

    plan.logs(sheet(z, 1, 100, 1))
    plan.logs(closing(1))
    plan.refuses(closing(1))
    price = next_price(100)
    ends_with(plan, sheet(y, 2, price, 2), "fdatasync")

    plan.logs(sheet(z, 2, price, 1))
    ends_with(plan, sheet(x, 2, price, 1), "write")

    plan.shows(text_of("GET /v1/me/bids", x))
    plan.logs(closing(2))
    plan.ends()
    return plan.generations


def ends_with(plan: Plan, text: bytes, call: str) -> None:
    """Ends a generation by a call that the second file refuses. The next start finds the text."""
    size = plan.size + FRONT
    plan.size += FRONT + len(text)
    at = size if call == "write" else plan.size
    plan.ends(Request(text, Outcome.NO_REPLY), (call, at), is_mirror=True)
