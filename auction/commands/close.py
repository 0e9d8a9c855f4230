"""Closes one round, once, and stores what the server forgets.

URL is the operator's: http://127.0.0.1:8106 behind nginx, or the server's own. TOKENFILE has the
operator's token. JOURNAL is the server's journal, which is read and never written. INCREMENT is one
number, or in version 2 one for all products or one for each, with commas between.

It prints who has a sheet in force and who does not, and asks before it closes the current round: a
closing cannot be undone. With --yes ROUND it asks nothing, and closes that round or none. A round
in which nobody has a sheet in force is closed only if the answer says so, or with --without-sheets.
The status is 0 if this call closed the round, and else 1.

If nginx's gate is next to FOLDER, this shuts both doors, waits until no request is on its way to
the server, and closes. The doors stay shut: `touch gate/open` opens them for the next round. With
conductor.json next to FOLDER, the inner door is open for `drain` more, and bidders see the new
state when the curtain lifts; this waits for that. A round that the published timetable announces to
be open is closed only with --early.

FOLDER has the chain of seeds that `auction commit` made before round 1. By the seed of the round
each pair of bidder and product gets a tie-breaking number. Up to 16,384 pairs all get one. Above
that, those with a bid in force or with processed demand do. If these are too many, nothing is
closed, and with --no-ties the closing has no numbers.

The closing's body is written to FOLDER/closing-N.json and brought to the disk before it is sent, so
that a closing that is sent twice is the same one. Then results-N.json is written to FOLDER,
round-N.json with the round's digest and seed, which is for everyone, and a line to closings.jsonl,
all for their owner only.

If the reply to a closing is lost, call it again. If the round is still open, the same closing is
sent. If it is closed, its pages are stored and nothing else is closed.

This also stores rounds that were closed in another way, such as by the operator's page; but the
server has only the results of the last round. Two calls at once wait for each other. If somebody
other than the server answers, it says so and ends, and it follows no redirection.
"""
import argparse
import dataclasses
import json
import pathlib
import sys

from auction.command import Command
from auction.conductor import disk
from auction.conductor.chain import ChainFault
from auction.conductor.clock import MachineClock
from auction.conductor.closing import (
    Auction,
    NotClosed,
    Outcome,
    Ties,
    check_fixed,
    check_folder,
    increments_of,
    keep,
    last_closed,
)
from auction.conductor.hand import Hand, Word, sheets_in_force
from auction.conductor.observed import Reason
from auction.conductor.server import NoReply, Operator, Refused
from auction.formats.journal import Journal, JournalFault
from auction.formats.setup import Setup
from auction.standby import mark


def arguments(parser: argparse.ArgumentParser) -> None:
    parser.add_argument("url", metavar="URL")
    parser.add_argument("token_file", metavar="TOKENFILE")
    parser.add_argument("setup", metavar="SETUP")
    parser.add_argument("journal", metavar="JOURNAL")
    parser.add_argument("folder", metavar="FOLDER")
    parser.add_argument("increment", metavar="INCREMENT")
    parser.add_argument(
        "--yes", type=int, metavar="ROUND", help="ask nothing, and close this round or none"
    )
    parser.add_argument(
        "--without-sheets", action="store_true", help="close though nobody has a sheet in force"
    )
    parser.add_argument("--no-ties", action="store_true", help="close without tie-breaking numbers")
    parser.add_argument(
        "--early", action="store_true", help="close before the end that the timetable announces"
    )
    parser.add_argument(
        "--changed", action="store_true", help="close though the journal has changed meanwhile"
    )


def auction_of(given: argparse.Namespace) -> Auction:
    setup, folder = Setup.read(pathlib.Path(given.setup)), pathlib.Path(given.folder)
    mark.check(folder.absolute().parent)
    disk.make_folder(folder, 0o700)
    operator = Operator(
        given.url, pathlib.Path(given.token_file).read_text(encoding="utf-8").strip()
    )
    auction = Auction(operator, setup, Journal(pathlib.Path(given.journal), setup), folder)
    auction.chain()  # there must be one
    return auction


def current_round(auction: Auction) -> int:
    """The round to close.

    If the last closed round's pages are not stored yet, as after a lost reply, stores them and
    closes nothing.
    """
    status = auction.operator.page("/v1/status")
    last = last_closed(status)
    check_folder(auction, last)
    if last and not auction.results_file(last).exists():
        keep(auction)
        raise NotClosed(
            f"round {last} was closed before, and its pages are stored now. "
            "No other round is closed."
        )
    if status["ended"]:
        raise NotClosed(f"the auction ended after round {last}")
    return status["round"]


def answer_to(question: str) -> str:
    """What is typed, or nothing if nobody is there."""
    try:
        return input(question).strip()
    except EOFError:
        return ""


def agree(given: argparse.Namespace, auction: Auction, number: int) -> bool:
    """Prints who has a sheet in force. Returns whether the round may be closed without one.

    NotClosed if the operator does not want this round closed, by an option or by what is typed.
    """
    if given.yes not in (None, number):
        was_closed = f"round {given.yes} was closed before, and " if given.yes < number else ""
        raise NotClosed(f"{was_closed}the current round is {number}, not {given.yes}")
    sent, bidders = sheets_in_force(auction, number), auction.setup.bidders
    missing = [name for name in bidders if name not in sent]
    others = f"; not: {', '.join(missing)}" if missing else ""
    print(
        f"round {number}: {len(sent)} of {len(bidders)} bidders have a sheet in force{others}",
        flush=True,
    )
    if given.yes is None:
        wanted = str(number) if sent or given.without_sheets else f"{number} without sheets"
        if answer_to(f"type {wanted} to close it: ") != wanted:
            raise NotClosed
        return given.without_sheets or not sent
    if not sent and not given.without_sheets:
        raise NotClosed(
            "nobody has a sheet in force. To close the round all the same, add --without-sheets."
        )
    return bool(given.without_sheets)


def close(hand: Hand, number: int, word: Word) -> None:
    """Closes this round by the body on disk, or by one that is made now, and stores its pages."""
    auction = hand.auction
    check_fixed(auction, number, word.increments)
    hand.note(number)
    if hand.has_doors:
        print(f"round {number} takes no sheets any more", flush=True)
    if auction.body_file(number).exists():
        print(
            f"the closing that was made before is sent again: {auction.body_file(number)}",
            flush=True,
        )
    answer = hand.close(number, word)
    if answer.outcome is Outcome.REFUSED:
        raise NotClosed(str(answer.page))
    if answer.outcome is Outcome.CLOSED:
        print(json.dumps(answer.page), flush=True)
    keep(auction)
    if answer.outcome is Outcome.CLOSED_BEFORE:
        raise NotClosed(
            f"round {number} was closed just before this closing arrived, and its pages are "
            f"stored: {answer.page}"
        )


def close_current(given: argparse.Namespace) -> None:
    """Asks about the current round, and closes it unless another call was first."""
    auction = auction_of(given)
    hand = Hand(auction, MachineClock(), lambda line: print(line, flush=True))
    with disk.locked(auction.lock()):
        number = current_round(auction)
    word = word_of(given, auction)
    hand.check_time(number, word)
    if agree(given, auction, number):
        word = dataclasses.replace(word, released=word.released | {Reason.NO_SHEETS})
    with hand.alone():
        if current_round(auction) != number:
            raise NotClosed(f"somebody else has closed round {number}. No other round is closed.")
        sheets_in_force(auction, number)
        close(hand, number, word)
    hand.wait_for_curtain()


def word_of(given: argparse.Namespace, auction: Auction) -> Word:
    """What the arguments say about the closing."""
    released = frozenset({Reason.CHANGED} if given.changed else set())
    ties = Ties.NONE if given.no_ties else Ties.OF_CHAIN
    return Word(increments_of(given.increment, auction.setup), ties, released, given.early)


def run(given: argparse.Namespace) -> int:
    try:
        close_current(given)
    except NotClosed as reason:
        sys.exit(f"not closed: {reason}" if str(reason) else "not closed")
    except (ChainFault, JournalFault) as fault:
        sys.exit(f"not closed: {fault}")
    except Refused as refusal:
        sys.exit(f"{refusal}. Nothing more is closed or stored.")
    except NoReply as fault:
        sys.exit(
            f"{fault}. Call it again when the server answers: a closing that was sent may have "
            "arrived."
        )
    except (OSError, ValueError) as fault:
        sys.exit(
            f"{fault}. What was closed stays closed. Call it again when this is fixed, and it "
            "stores the pages."
        )
    except KeyboardInterrupt:
        sys.exit(
            "stopped. A closing that was sent may still be done: call it again, or look at the "
            "status."
        )
    return 0


COMMAND = Command.of("close", __doc__, arguments, run)
