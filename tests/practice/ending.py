"""The end of a practice, by its files only."""
import json
import pathlib
from typing import Any

from tests.practice.practice import TOKEN, Practice


class Ending:
    """What a practice that has ended left in its folder, and said."""

    def __init__(self, practice: Practice) -> None:
        self.folder, self.said = practice.folder, practice.said

    def read(self, name: str) -> Any:
        return json.loads((self.folder / name).read_text())

    @property
    def setup(self) -> dict[str, Any]:
        return self.read("setup.json")

    @property
    def winners(self) -> list[dict[str, Any]]:
        return self.read("public/winners.json")["bidders"]

    @property
    def rounds(self) -> list[dict[str, Any]]:
        count = self.read("public/timetable.json")["round"]
        return [self.read(f"public/rounds/{number}.json") for number in range(1, count + 1)]

    @property
    def gain(self) -> str:
        """The practice's words for what the player gained: what the blocks are worth, less the
        payment.
        """
        values = self.read("values.json")
        bidders = self.setup["bidders"]
        you = next(place for place, each in enumerate(bidders) if each["token"] == TOKEN)
        demands, pays = self.winners[you]["demands"], self.winners[you]["pays"]
        worth = sum(
            sum(values[product["name"]][:blocks])
            for product, blocks in zip(self.setup["products"], demands)
        )
        return f"{'-' if worth < pays else ''}${abs(worth - pays):,}"


def lines_of(folder: pathlib.Path, kind: str) -> list[str]:
    """The lines of the recount that begin with a word."""
    text = (folder / "audit.txt").read_text()
    return [line for line in text.splitlines() if line.startswith(kind + " ")]


# ---- What is checked of each end


def the_timetable_has_the_end(ending: Ending) -> None:
    table = ending.read("public/timetable.json")
    assert (table["ended"], table["round"]) == (True, ending.read("public/winners.json")["round"])


def only_the_last_round_is_the_end(ending: Ending) -> None:
    ends = [page["ended"] for page in ending.rounds]
    assert ends == [False] * (len(ends) - 1) + [True]


def no_product_has_excess_demand_at_the_end(ending: Ending) -> None:
    assert {sold["demand"] for sold in ending.rounds[-1]["products"]} == {None}


def a_winner_pays_the_posted_prices(ending: Ending) -> None:
    prices = [sold["posted"] for sold in ending.rounds[-1]["products"]]
    for bidder in ending.winners:
        assert bidder["pays"] == sum(map(int.__mul__, bidder["demands"], prices))


def the_recount_has_the_same_winners(ending: Ending) -> None:
    wanted = [
        f"won {each['name']} {' '.join(map(str, each['demands']))} {each['pays']}"
        for each in ending.winners
    ]
    assert lines_of(ending.folder, "won") == wanted


def the_recount_has_the_published_digests(ending: Ending) -> None:
    digests = [line.split()[2] for line in lines_of(ending.folder, "closed")]
    assert digests == [page["digest"] for page in ending.rounds]


def two_recounts_agree(ending: Ending) -> None:
    words = "`auction recount` and `clock_auction audit` count the auction again"
    assert words in ending.said
    assert f"the blocks and payments of all {len(ending.winners)} bidders." in ending.said


def the_gain_is_said(ending: Ending) -> None:
    last = ending.read("public/announcements.json")["announcements"][-1]["text"]
    for text in (ending.said, last):
        assert f"your gain is {ending.gain}." in text


def no_token_is_published(ending: Ending) -> None:
    tokens = {bidder["token"] for bidder in ending.setup["bidders"]} | {ending.setup["operator"]}
    texts = {file.name: file.read_text() for file in (ending.folder / "public").rglob("*.json")}
    told = [name for name, text in texts.items() if any(token in text for token in tokens)]
    assert texts and told == []


def only_its_owner_may_read_the_folder(ending: Ending) -> None:
    assert ending.folder.stat().st_mode & 0o077 == 0


CHECKS = [
    the_timetable_has_the_end,
    only_the_last_round_is_the_end,
    no_product_has_excess_demand_at_the_end,
    a_winner_pays_the_posted_prices,
    the_recount_has_the_same_winners,
    the_recount_has_the_published_digests,
    two_recounts_agree,
    the_gain_is_said,
    no_token_is_published,
    only_its_owner_may_read_the_folder,
]
