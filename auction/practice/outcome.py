"""The end of a practice: the player's blocks and gain, the gain of a bidder with its values, which
round cost what, and the recounts.
"""
import pathlib
import subprocess
import sys

from auction.installed import TOP
from auction.practice.costs import Played, costs, outcome
from auction.practice.game import Game
from auction.practice.rounds import Ending
from auction.practice.server import Server
from auction.recount.rules import recounted

AUCTION = TOP / "auction" / "bin" / "auction"
LINES = 40  # lines of a recount that the terminal shows
SHOWN = 4  # rounds whose cost is said


def blocks_words(game: Game, demands: list[int]) -> str:
    """Blocks with their products, such as `2 Albany, 1 Boston`."""
    won = [
        f"{blocks} {product['name']}" for product, blocks in zip(game.products, demands) if blocks
    ]
    return ", ".join(won) or "nothing"


def dollars(amount: int) -> str:
    return f"{'-' if amount < 0 else ''}${abs(amount):,}"


def payment(demands: list[int], posted: list[int]) -> int:
    """What a bidder pays for its processed demands at the posted prices."""
    return sum(blocks * price for blocks, price in zip(demands, posted))


def your_words(game: Game, ending: Ending) -> str:
    """The words for what the player won, pays, and gains."""
    demands = ending.bidders[game.you]["demands"]
    pays, gain = payment(demands, ending.posted), game.gain(game.you, demands, ending.posted)
    if not any(demands):
        return "You won nothing and pay nothing: your gain is $0."
    return (
        f"You won {blocks_words(game, demands)} and pay {dollars(pays)}. "
        f"The blocks are worth {dollars(gain + pays)} to you: your gain is {dollars(gain)}."
    )


def played_in(game: Game, ending: Ending, folder: pathlib.Path) -> Played:
    """The auction of a folder, with the sheets of its journal."""
    document = (folder / "setup.json").read_bytes()
    counted = recounted(document, (folder / "auction.journal").read_bytes())
    return Played(game, [one.sheets for one in counted.auction.rounds], ending.closings)


def sincere_words(played: Played) -> str:
    """The words for what a bidder that follows the player's values would have won.

    Empty if that has no result, such as for values whose activity is above the eligibility.
    """
    if not (end := outcome(played, 1)):
        return ""
    return (
        " A bidder that follows your values in every round would have won "
        f"{blocks_words(played.game, end.demands)} for {dollars(end.pays)}: "
        f"a gain of {dollars(end.gain)}."
    )


def costs_words(found: dict[int, int]) -> str:
    """The words for what the rounds cost, the dearest ones in their order."""
    dearest = sorted(found, key=lambda number: (-abs(found[number]), number))[:SHOWN]
    said = [
        f"round {number} {'cost' if found[number] > 0 else 'gained'} you "
        f"{dollars(abs(found[number]))}"
        for number in sorted(dearest)
    ]
    return f" Compared with that, {', '.join(said)}." if said else ""


def recounts(program: pathlib.Path, folder: pathlib.Path) -> dict[str, str]:
    """The recounts of an auction from its set-up and its journal.

    They are by the name of the program or script that printed them.
    """
    setup, journal = str(folder / "setup.json"), str(folder / "auction.journal")
    audit = [str(program), "audit", "--setup", setup, "--journal", journal]
    commands = {
        "auction recount": [sys.executable, str(AUCTION), "recount", setup, journal],
        "clock_auction audit": audit,
    }
    done = {
        name: subprocess.run(command, capture_output=True, text=True, check=False)
        for name, command in commands.items()
    }
    return {name: each.stdout + each.stderr for name, each in done.items()}


def recount_words(program: pathlib.Path, ending: Ending, folder: pathlib.Path) -> str:
    """The last lines of the recounts, and whether they agree with each other and the server."""
    texts = recounts(program, folder)
    text, names = next(iter(texts.values())), " and ".join(f"`{name}`" for name in sorted(texts))
    (folder / "audit.txt").write_text(text)
    wanted = [
        f"won {bidder['name']} {' '.join(map(str, bidder['demands']))} "
        f"{payment(bidder['demands'], ending.posted)}"
        for bidder in ending.bidders
    ]
    won = [line for line in text.splitlines() if line.startswith("won ")]
    verdict = (
        f"That is what the server showed: the blocks and payments of all {len(wanted)} bidders."
    )
    if set(texts.values()) != {text} or won != wanted:
        verdict = (
            "THIS IS NOT what the server showed, or the recounts differ. "
            f"Please report it, with {folder}."
        )
    shown = "\n".join("    " + line for line in text[text.rfind("round ") :].splitlines()[:LINES])
    return (
        f"{names} count the auction again, from its set-up and its journal.\n"
        f"The last round, and what each bidder won and pays:\n\n{shown}\n\n{verdict}"
    )


def ending_words(game: Game, ending: Ending, server: Server) -> str:
    """The words for the page about the end."""
    played = played_in(game, ending, server.folder)
    return your_words(game, ending) + sincere_words(played) + costs_words(costs(played))
