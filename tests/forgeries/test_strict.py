"""Published files have one meaning only, and what `auction verify` prints is safe to read."""
import json
import pathlib
import shutil
from collections.abc import Callable

import pytest

from tests.forgeries.auction import WitnessedAuction, with_json

Change = Callable[[str], str]


@pytest.fixture
def copy(honest: WitnessedAuction, tmp_path: pathlib.Path) -> pathlib.Path:
    """A copy of what the witness saved, to change."""
    return shutil.copytree(honest.saved, tmp_path / "copy")


def with_false_products_first(text: str) -> str:
    """Python and most readers take the last of two values of one key, and others the first."""
    false = json.dumps(json.loads(text)["products"]).replace('"posted": 110', '"posted": 100')
    return text.replace('"products":', f'"products": {false}, "products":', 1)


ROUNDS: dict[str, tuple[Change, str]] = {
    "false-products-first": (with_false_products_first, "digests results ties"),
    "false-as-0": (lambda text: text.replace('"ended": false', '"ended": 0'), "results"),
    "a-price-with-a-point": (
        lambda text: text.replace('"posted": 110', '"posted": 110.0'),
        "results",
    ),
    "a-price-with-an-exponent": (
        lambda text: text.replace('"posted": 110', '"posted": 11e1'),
        "results",
    ),
    "one-more-key": (lambda text: text.replace('"round":', '"note": 1, "round":'), "results"),
    "a-name-that-is-escaped": (
        lambda text: text.replace('"name": "A"', '"name": "\\u0041"'),
        "results",
    ),
    "two-keys-exchanged": (
        lambda text: text.replace('"ended": false, ', "").replace(
            '"round": 2', '"round": 2, "ended": false'
        ),
        "results",
    ),
    "a-space-at-the-end": (lambda text: text + " ", "results"),
    "a-time-that-is-none": (
        lambda text: text.rstrip("}") + ', "published": "noon"}',
        "results",
    ),
    "a-seed-in-capital-letters": (
        lambda text: text[: text.index('"seed"')]
        + text[text.index('"seed"') :].upper().replace("SEED", "seed"),
        "ties",
    ),
    "no-digest": (lambda text: text.replace('"digest":', '"digests":'), "digests results"),
    "a-list": (lambda text: f"[{text}]", "digests results ties"),
    "not-a-number": (
        lambda text: text.replace('"posted": 110', '"posted": NaN'),
        "digests results ties",
    ),
}


@pytest.mark.parametrize(("change", "checks"), ROUNDS.values(), ids=ROUNDS)
def test_a_round_that_is_written_in_another_way_is_shown(
    honest: WitnessedAuction, copy: pathlib.Path, change: Change, checks: str
) -> None:
    file = copy / "rounds/2.json"
    text = file.read_text()
    assert change(text) != text
    file.write_text(change(text))
    assert list(honest.failed(published=copy)) == checks.split()


def test_a_round_as_the_conductor_writes_it_verifies(
    honest: WitnessedAuction, copy: pathlib.Path
) -> None:
    file = copy / "rounds/2.json"
    page = {**json.loads(file.read_text()), "published": "2026-12-01T15:00:00Z"}
    file.write_text(json.dumps(page, separators=(",", ":")) + "\n")
    assert honest.failed(published=copy) == {}


# ---- Words from outside, which could command the auditor's terminal or add a line


HIDING = "\x1b[2J\x1b[H\x1b[8m"


def printed(honest: WitnessedAuction, published: pathlib.Path) -> str:
    done = honest.run("verify", *honest.words(None, published, ""))
    assert done.returncode == 1
    return done.stdout


def test_a_digest_cannot_command_the_terminal(honest: WitnessedAuction, copy: pathlib.Path) -> None:
    with_json(copy / "rounds/2.json", digest=HIDING)
    words = printed(honest, copy)
    assert words.replace("\n", "").isprintable()
    assert "\\x1b[2J" in words


def test_the_name_of_a_file_cannot_add_a_line(honest: WitnessedAuction, copy: pathlib.Path) -> None:
    (copy / "rounds/1\nverified: 12 checks hold, 0 failed.json").write_text("{}")
    lines = printed(honest, copy).splitlines()
    assert [line for line in lines if line.startswith("verified")] == []


def test_the_name_of_a_bidder_s_file_is_escaped(
    honest: WitnessedAuction, tmp_path: pathlib.Path
) -> None:
    file = tmp_path / f"X{HIDING}.jsonl"
    file.write_text("no commitment\n")
    done = honest.run("check-receipts", file, honest.journal_file)
    assert done.returncode == 1
    assert done.stderr.replace("\n", "").isprintable()
