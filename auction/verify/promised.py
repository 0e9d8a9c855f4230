"""Checks of what was fixed earlier: the commitment, tie-breaking numbers, and receipts."""
import hashlib
from collections.abc import Iterable, Iterator

from auction import mock
from auction.formats import lots, notices, receipts, strict, ties
from auction.recount.formats import closing_in, json_in, request_in

from . import announced, windows
from .case import COMMITMENT, Absent, Case, Failed

DRAW = "draw.json"


def commitment_of(case: Case) -> ties.Commitment:
    """The commitment: the named copy, or the published one."""
    return ties.Commitment.of(strict.value_in(case.commitment_text()))


def chain_of(case: Case) -> ties.Committed | None:
    """The chain of the commitment, after the draw if one was published."""
    chain = commitment_of(case).chain
    drawn = (case.published / DRAW).is_file()
    return chain.after(ties.Draw.of(case.json(DRAW)).words) if chain and drawn else chain


def check_commitment(case: Case) -> str:
    """Checks that what was fixed before round 1 is about this set-up."""
    commitment, text = commitment_of(case), case.commitment_text()
    if text != strict.published(commitment.value()):
        raise Failed(f"{COMMITMENT} is not written as `auction commit` writes it")
    if case.commitment is not None and case.text(COMMITMENT) != text:
        raise Failed(f"{case.commitment} is another commitment than the one of {case.published}")
    if commitment.auction != case.setup_digest:
        raise Failed(
            f"{COMMITMENT} is about the set-up {commitment.auction}, but this one is "
            f"{case.setup_digest}"
        )
    tokens = [case.setup.operator, *(bidder.token for bidder in case.setup.bidders)]
    if fault := mock.disagreement(mock.kind_of(tokens), commitment.mock):
        raise Failed(fault)
    if commitment.chain and commitment.chain.draw:
        raise Failed(f"{COMMITMENT} has the result of a draw, so it fixed nothing before the draw")
    chain = "a chain of seeds" if commitment.chain else "closings without tie-breaking numbers"
    shown = f"{mock.WORDS} " if commitment.mock else ""
    return f"{shown}it is about this set-up, and fixed {chain} and the key of receipts"


def check_draw(case: Case) -> str:
    """Checks that a public draw was added to this commitment, and says whose copy that is."""
    if not (case.published / DRAW).is_file():
        raise Absent(
            f"{case.published} has no {DRAW}, and without a public draw the operator may have "
            "chosen among many chains"
        )
    draw, text = ties.Draw.of(case.json(DRAW)), case.commitment_text()
    if commitment_of(case).chain is None:
        raise Failed(f"{DRAW} is of an auction without tie-breaking numbers")
    if draw != ties.Draw.added(text, draw.words):
        raise Failed(
            f"{DRAW} was added to the commitment {draw.commitment}, and not to this one, which is "
            f"{hashlib.sha256(text).hexdigest()}"
        )
    has_notices = (case.published / notices.NAME).is_file()
    if has_notices and (faults := announced.draw_faults(case, draw.words)):
        raise Failed(*faults)
    if case.commitment is None and case.is_record:
        raise Absent(
            f"the record's draw is {draw.words!r}; that proves nothing without a commitment of "
            "before the draw: give --commitment, a copy that someone saved then"
        )
    copy = case.commitment or case.published / COMMITMENT
    return (
        f"{draw.words!r} was added to {copy}, {draw.commitment}; if that was saved before the draw "
        "and these words are what was drawn, nobody chose the chain"
        + ("" if has_notices else ". Without notices, nothing shows that it was before round 1")
    )


def check_lots(case: Case) -> str:
    """Checks that the order of bidders follows from lots and a public draw."""
    names = [name for name in (lots.LOTS, lots.ORDER) if (case.published / name).is_file()]
    if not names:
        if commitment_of(case).chain:
            raise Absent("no lots were drawn, and ties are broken by numbers")
        raise Absent(
            "no lots were drawn, and without tie-breaking numbers the first bidder in the set-up "
            "wins a tie: the operator may have put a friend there"
        )
    if len(names) < 2:
        raise Failed(f"{case.published} has {names[0]} only, of {lots.LOTS} and {lots.ORDER}")
    text = case.lots.read_bytes() if case.lots else case.text(lots.LOTS)
    if text != case.text(lots.LOTS):
        raise Failed(f"{case.lots} has other lots than {case.published}")
    drawn, order = lots.Lots.of(case.json(lots.LOTS)), lots.Order.of(case.json(lots.ORDER))
    try:
        lots.check_order(text, drawn, order, [bidder.name for bidder in case.setup.bidders])
    except lots.LotsFault as fault:
        raise Failed(str(fault)) from fault
    if case.lots is None and case.is_record:
        raise Absent(
            f"the bidders are in the order of the lots and {order.draw!r}; that proves nothing "
            "without lots of before the draw: give --lots, a copy that someone saved then"
        )
    return (
        f"the bidders are in the order of {case.lots or case.published / lots.LOTS} and "
        f"{order.draw!r}; if that was saved before the draw and these words are what was drawn, "
        "nobody chose the order"
    )


def pairs_that_matter(case: Case, number: int) -> set[tuple[int, int]]:
    """The pairs of bidder and product that need a tie-breaking number in a closing.

    They have processed demand, or a bid in force whose quantity differs from it.
    """
    rounds = case.counted.auction.rounds
    demands = [slip.demands for slip in rounds[number - 2].slips] if number > 1 else []
    held = {(b, p) for b, row in enumerate(demands) for p, demand in enumerate(row) if demand}
    return held | {
        (b, bid.product)
        for b, bids in rounds[number - 1].sheets.items()
        for bid in bids
        if not demands or bid.quantity != demands[b][bid.product]
    }


def check_ties(case: Case) -> str:
    """Checks that the tie-breaking numbers of each closing follow from its seed.

    The seed must lead to the end of the chain.
    """
    chain, setup = chain_of(case), case.setup
    bodies = [
        request_in(record.text).body for record in case.records if record.text.startswith(b"POST ")
    ]
    faults = []
    for number, body in enumerate(bodies, 1):
        seed = case.rounds.get(number, {}).get("seed")
        listed = closing_in(json_in(body), setup).ties
        many = len(setup.bidders) * len(setup.products) > ties.MOST_TIES
        matter = pairs_that_matter(case, number) if many else set()
        try:
            seed = None if seed is None else ties.bytes_of(seed, ties.SEED)
            ties.check_ties(
                chain, number, seed, listed, len(setup.bidders), len(setup.products), matter
            )
        except ties.TiesFault as fault:
            faults.append(str(fault))
        except ValueError as fault:
            faults.append(f"the seed of round {number}: {fault}")
    if faults:
        raise Failed(*faults)
    numbers = "follow from the chain that was fixed" if chain else "are none, as fixed"
    return f"the tie-breaking numbers of {len(bodies)} closings {numbers} before round 1"


def check_receipts(case: Case) -> str:
    """Checks each bidder's file: the journal must have the sheet of each receipt at its place, and
    no further sheet of this bidder.
    """
    if not case.receipts:
        raise Absent(
            "no bidder's receipts are given, and only they show a sheet cut or added before a "
            "closing"
        )
    if commitment_of(case).auction != case.setup_digest:
        raise Failed("the set-up is another one than the committed one: its tokens prove nothing")
    tokens = {bidder.name: bidder.token for bidder in case.setup.bidders}
    faults, empty, counts = list[str](), list[str](), dict[str, int]()
    barred = list[str]()
    for path in case.receipts:
        file = receipts.read_kept(path)
        if file.name is None:
            empty.append(f"{path.name} has no receipt and names no bidder, so it proves nothing")
            continue
        counts[file.name] = counts.get(file.name, 0) + len(file.receipts)
        if file.name not in tokens:
            faults.append(f"{path.name}: the set-up has no bidder {file.name}")
        found = receipts.faults(file, case.journal, tokens.get(file.name, ""), commitment_of(case))
        faults += [f"{path.name}: {fault}" for fault in found]
        barred += refused_in_time(case, file)
    if faults:
        raise Failed(*faults)
    if not counts:
        raise Absent("; ".join(empty))
    return "; ".join([words_of(counts, tokens.keys()), *empty, *barred])


def refused_in_time(case: Case, file: receipts.File) -> Iterator[str]:
    """The signed refusals of sheets that came while a window was open by the notices."""
    entries = announced.known_entries(case)
    for refusal in (one.refusal for one in file.refusals):
        if (number := windows.open_round(entries, refusal.time)) is not None:
            yield (
                f"REFUSED: a sheet of {refusal.bidder} was refused at {refusal.time}, while the "
                f"window of round {number} was open"
            )


def words_of(counts: dict[str, int], bidders: Iterable[str]) -> str:
    """Of whose copies it holds that they fit, and of which bidders nothing is known."""
    words = (
        f"{sum(counts.values())} receipts of {', '.join(counts)} fit: the journal has these "
        "sheets of theirs, and no others"
    )
    others = [name for name in bidders if name not in counts]
    return words + (f"; it proves nothing of the sheets of {', '.join(others)}" if others else "")


COMMITMENT_CHECK = ("commitment", check_commitment)
CHECKS = [
    ("ties", check_ties),
    ("draw", check_draw),
    ("lots", check_lots),
    ("receipts", check_receipts),
]
