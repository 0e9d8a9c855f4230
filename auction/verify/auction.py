"""Checks of a journal, and of what was published of each round."""
import json
import re
from typing import Any

from auction.formats import strict
from auction.recount.rules import Round

from .announced import announcement_faults, announcements_in, closing_said
from .case import Absent, Case, Failed

CUT = "requests are missing at the end of the journal"
TIME = re.compile("[0-9]{4}-[01][0-9]-[0-3][0-9]T[0-2][0-9]:[0-5][0-9]:[0-5][0-9]Z")
CHANGED = (
    "a request up to this closing was changed, left out, or added after the digest was published"
)
FALSE_COPY = (
    "the operator signed the journal's digest, so whoever saved this page may have changed it, and "
    "it proves nothing against the operator"
)


def short(digest: Any) -> str:
    """The first digits of a digest, for messages."""
    return f"{str(digest)[:12]}.."


def check_setup(case: Case) -> str:
    """Checks that the set-up document is valid."""
    setup = case.setup
    return (
        f"a valid document of {len(setup.products)} products and {len(setup.bidders)} bidders; "
        f"its SHA-256 is {case.setup_digest}"
    )


def check_journal(case: Case) -> str:
    """Checks that each record is whole, and follows from the one before.

    The file must have nothing else.
    """
    last = case.records[-1] if case.records else None
    end = last.place + 40 + len(last.text) if last else 56
    if end != len(case.journal):
        raise Failed(
            f"{len(case.journal) - end} bytes from byte {end} on are no whole record: "
            "a request is cut off, or something was added"
        )
    digest = last.digest if last else case.setup_digest
    count = f"{len(case.records)} requests"
    return f"{count}, each digest follows from the one before; the last is {digest}"


def check_rules(case: Case) -> str:
    """Checks that the rules accept every request."""
    auction = case.counted.auction
    sheets = case.counted.texts - len(auction.rounds)
    ending = "the auction has ended" if auction.ended else "the auction has not ended"
    return (
        f"{sheets} sheets and {len(auction.rounds)} closings, each accepted by the rules; {ending}"
    )


def check_digests(case: Case) -> str:
    """Compares the published digest of each closing with the journal's.

    Nothing may be published that the journal lacks.
    """
    if not case.rounds and not case.closings:
        raise Absent("no round is closed")
    if not case.rounds:
        raise Failed(
            f"{case.published} has no rounds/N.json: there is nothing with which the journal can "
            "be compared"
        )
    faults = []
    for number in sorted({*case.rounds, *range(1, len(case.closings) + 1)}):
        if number not in case.rounds:
            faults.append(
                f"round {number} is closed in the journal, but {case.published} has no such round"
            )
        elif number > len(case.closings):
            faults.append(
                f"round {number} was published, but the journal has no closing of it: {CUT}"
            )
        elif case.rounds[number].get("digest") != case.closings[number - 1]:
            published = short(case.rounds[number].get("digest"))
            found = short(case.closings[number - 1])
            is_signed = closing_said(case, number) == case.closings[number - 1]
            faults.append(
                f"round {number} was published with {published}, but the journal has {found}: "
                f"{FALSE_COPY if is_signed else CHANGED}"
            )
    if faults:
        raise Failed(*faults)
    count = f"the {len(case.rounds)} digests of {case.published} are those of the journal"
    if case.is_record:
        return f"{count}; this is a record, so that proves only that it agrees with itself"
    return f"{count}, so no request up to them was changed after someone saved them there"


def page_of(
    setup_names: list[str], supplies: list[int], number: int, closed: Round
) -> dict[str, Any]:
    """The page of a closed round, as the server writes it."""
    products = [
        {
            "clock": line.clock,
            "demand": line.demand if line.demand > supply else None,
            "name": name,
            "next": line.next,
            "posted": line.posted,
            "start": line.start,
        }
        for name, supply, line in zip(setup_names, supplies, closed.lines)
    ]
    return {"ended": closed.ended, "products": products, "round": number}


def is_as_served(text: bytes, found: dict[str, Any], page: dict[str, Any]) -> bool:
    """Whether a file is byte for byte the page of a round, as the conductor or `auction close`
    writes it.

    Its digest and its seed have checks of their own, and no file proves when it was published.
    """
    page = {**page, "digest": found.get("digest"), "seed": found.get("seed")}
    if "published" in found:
        page["published"] = found["published"]
        if not TIME.fullmatch(str(page["published"])):
            return False
    return text in (strict.published(page), json.dumps(page).encode())


def check_results(case: Case) -> str:
    """Compares the published results of each round, byte for byte, with those of the recount."""
    names = [product.name for product in case.setup.products]
    supplies = [product.supply for product in case.setup.products]
    faults = []
    for number, closed in enumerate(case.counted.auction.rounds, 1):
        if number not in case.rounds:
            faults.append(f"the results of round {number} were not published")
            continue
        found, page = case.rounds[number], page_of(names, supplies, number, closed)
        if page != {key: found.get(key) for key in page}:
            faults.append(
                f"the published results of round {number} are not those of the journal by the rules"
            )
        elif not is_as_served(case.text(f"rounds/{number}.json"), found, page):
            faults.append(
                f"rounds/{number}.json is not byte for byte the page that the server gives: other "
                "readers may find other results in it"
            )
    if faults:
        raise Failed(*faults)
    count = len(case.counted.auction.rounds)
    return f"the published results of {count} rounds are those of the journal by the rules"


def check_announcements(case: Case) -> str:
    """Checks that each round was announced with the digest that was published with it.

    No other round may be announced, and announcements are numbered from 1.
    """
    if not (case.published / "announcements.json").is_file() and announcements_in(case):
        raise Failed("announcements.json is not there, and by the notices there were announcements")
    made = case.json("announcements.json")["announcements"]
    announced = {one["key"]: re.findall(r"\b[0-9a-f]{64,}\b", one["text"]) for one in made}
    faults = [
        f"round {number} was published with {short(page.get('digest'))}, and not announced with "
        "this digest"
        for number, page in case.rounds.items()
        if announced.get(f"closed-{number}") != [page.get("digest")]
    ]
    closings = {f"closed-{number}" for number in case.rounds}
    faults += [
        f"{key} is announced, and no such round was published"
        for key in announced
        if key.startswith("closed-") and key not in closings
    ]
    if [one["number"] for one in made] != list(range(1, len(made) + 1)):
        faults.append("the announcements are not numbered from 1: one was added or left out")
    if len(announced) < len(made):
        faults.append("two announcements have one key")
    faults += [
        f"announcement {one['number']} has other parts than an announcement"
        for one in made
        if one.keys() != {"key", "number", "text", "time"} or not TIME.fullmatch(one["time"])
    ]
    faults = faults or announcement_faults(case, made)
    if faults:
        raise Failed(*faults)
    return f"the digests of {len(case.rounds)} rounds were announced as they were published"


def check_winners(case: Case) -> str:
    """Compares the published winners, byte for byte, with those of the recount."""
    winners, auction = case.text("winners.json"), case.counted.auction
    if not auction.ended:
        raise Failed("winners are published, but by the journal the auction has not ended")
    last = auction.rounds[-1]
    bidders = [
        {
            "name": bidder.name,
            "demands": slip.demands,
            "pays": sum(blocks * line.posted for blocks, line in zip(slip.demands, last.lines)),
        }
        for bidder, slip in zip(case.setup.bidders, last.slips)
    ]
    mark = {"mock": True} if case.is_mock else {}
    if winners != strict.published({"bidders": bidders, "round": len(auction.rounds), **mark}):
        raise Failed("the published winners or payments are not those of the journal by the rules")
    return f"what {len(bidders)} bidders won and pay is what the rules say"


FILES = [("set-up", check_setup), ("journal", check_journal), ("rules", check_rules)]
ROUNDS = [
    ("digests", check_digests),
    ("results", check_results),
    ("announcements", check_announcements),
    ("winners", check_winners),
]
