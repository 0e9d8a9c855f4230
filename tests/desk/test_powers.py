"""What one person may do, and what needs two: every request in every situation of a small model."""
import dataclasses
import itertools
import pathlib
import re
from collections.abc import Callable

import pytest

from auction.desk import powers
from auction.desk.powers import Ask, Do, Refuse, Situation, Wanted, Withdraw
from tests.desk.rule import expected, situations, wanteds
from tests.lib.paths import TOP

pytestmark = pytest.mark.early

Judge = Callable[[Wanted, Situation], powers.Verdict]
SOURCE = pathlib.Path(powers.__file__).read_text()


def in_words(verdict: powers.Verdict) -> str:
    match verdict:
        case Do(_, people):
            return "do " + ", ".join(people)
        case Ask():
            return "ask"
        case Withdraw():
            return "withdraw"
        case Refuse():
            return "refuse"


def differences(judge: Judge) -> list[tuple[Wanted, Situation]]:
    """Requests that a judge does not judge as the guide says, up to the first few."""
    found = (
        (wanted, seen)
        for wanted, seen in itertools.product(list(wanteds()), situations())
        if in_words(judge(wanted, seen)) != expected(wanted, seen)
    )
    return list(itertools.islice(found, 3))


def test_each_request_in_each_situation_is_judged_as_the_guide_says() -> None:
    assert differences(powers.judge) == []


def test_the_model_is_not_small() -> None:
    assert len(list(wanteds())) > 700 and len(list(situations())) > 1_900


# Each is a mistake in the source: what is there, and what is planted in its place.
MISTAKES = {
    "a repeated request is done again": ("wanted.key in seen.used", "False"),
    "an older round passes": ("wanted.round != seen.round or", ""),
    "a stale page passes": ("(is_whole and wanted.stamp != seen.stamp)", "False"),
    "a pause is bound to all": ('"pause": Power(1, Binds.ROUND)', '"pause": Power(1, Binds.ALL)'),
    "a plan is bound to the round only": (
        '"plan": Power(1, Binds.ALL)',
        '"plan": Power(1, Binds.ROUND)',
    ),
    "one person closes early": ('"close": Power(2', '"close": Power(1'),
    "one person gives the word": ('"next": Power(2', '"next": Power(1'),
    "one person publishes winners": ('"winners": Power(2', '"winners": Power(1'),
    "a pause needs two": ('"pause": Power(1', '"pause": Power(2'),
    "nothing is typed": (
        'Power(2, Binds.ALL, is_typed=True),\n    "winners"',
        'Power(2, Binds.ALL),\n    "winners"',
    ),
    "one person continues at once": ("minutes < SOONEST", "False"),
    "five minutes need two": ("minutes < SOONEST", "minutes <= SOONEST"),
    "one person confirms its own act": ("wanted.who == waiting.wanted.who", "False"),
    "an old act is confirmed": ("    if is_late(waiting, seen.now):", "    if False:"),
    "an act of the future is confirmed": ("waiting.since <= now <", "now <"),
    "an act waits a second too long": (
        "now < waiting.since + PATIENCE",
        "now <= waiting.since + PATIENCE",
    ),
    "another act is confirmed": (" or waiting.wanted.key != wanted.of", ""),
    "a confirmed act is not judged again": (
        "if why := refusal_of(waiting.wanted, seen):",
        "if why := None:",
    ),
    "a second person types nothing": (
        "if not is_typed(waiting.wanted, wanted.typed):",
        "if False:",
    ),
    "a first person types nothing": ("if not is_typed(wanted, wanted.typed):", "if False:"),
    "an act waits for nobody": ("len(seen.people) < 2", "False"),
    "a second act replaces the one that waits": (
        "if seen.waiting and not is_late(seen.waiting, seen.now):",
        "if False:",
    ),
    "a late act blocks others": (
        "if seen.waiting and not is_late(seen.waiting, seen.now):",
        "if seen.waiting:",
    ),
    "an ended auction is paused": ("    if facts.has_ended:\n        return Refusal.ENDED\n", ""),
    "a paused auction is closed": (
        'facts.is_paused and act != "plan"',
        'facts.is_paused and act == "pause"',
    ),
    "a paused auction has no new timetable": (' and act != "plan"', ""),
    "an auction that runs is resumed": ("None if facts.is_paused else Refusal.NOT_PAUSED", "None"),
    "a word for a round that waits for none": ('act == "next" and not facts.is_held', "False"),
    "winners before the end": ("if not facts.has_ended:", "if False:"),
    "winners twice": ("Refusal.PUBLISHED if facts.has_winners else None", "None"),
}


@pytest.mark.parametrize("there, planted", MISTAKES.values(), ids=MISTAKES)
def test_a_planted_mistake_is_found(there: str, planted: str) -> None:
    assert SOURCE.count(there) == 1, there
    words: dict[str, object] = {"__name__": "mistaken"}
    source = SOURCE.replace(there, planted)
    shared = re.compile(r"(?ms)^@dataclasses\.dataclass\(frozen=True\)\nclass (\w+):.*?(?=^\S)")
    exec(compile(shared.sub(named, source), "mistaken", "exec"), words)  # pylint: disable=exec-used
    judge = words["judge"]
    assert callable(judge)
    assert differences(judge)


def named(found: re.Match[str]) -> str:
    """A class that the mistaken module shares, so that verdicts can be compared."""
    if found[1] == "Power":
        return found[0]
    return f"from auction.desk.powers import {found[1]}\n\n\n"


def test_every_act_of_the_table_is_in_the_guide() -> None:
    guide = (TOP / "docs/operators.md").read_text()
    rows = re.findall(r"(?m)^\| `([a-z]+)` \| (one|two)\b[^|]*\|", guide)
    table = {act: "one" if power.people == 1 else "two" for act, power in powers.POWERS.items()}
    assert dict(rows) == table


def test_facts_are_all_that_decides() -> None:
    names = [field.name for field in dataclasses.fields(powers.Facts)]
    assert names == ["is_paused", "is_held", "has_ended", "has_winners"]
