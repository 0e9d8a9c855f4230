"""What `auction close` refuses: nothing is closed then, and no closing is left on disk."""
import pytest

from tests.close.auction import CloseAuction

OTHER_TOKEN = "NOTTHEOPERATORSTOKEN"
OTHER_JOURNAL = b"clock_auction journal 1\n" + bytes(32)
REFUSED = {
    "an-increment-above-50": ("51", {}, "increment"),
    "two-increments-in-version-1": ("10,20", {}, "version 1"),
    "an-increment-that-is-no-number": ("10%", {}, "10%"),
    "another-token": ("10", {"token": "other.token"}, "token"),
    "another-journal": ("10", {"journal": "other.journal"}, "no journal of this set-up"),
    "no-journal": ("10", {"journal": "none"}, "none"),
}


@pytest.fixture
def with_sheets(auction: CloseAuction) -> CloseAuction:
    """An auction in which bidders 0 and 2 have a sheet in force."""
    (auction.folder / "other.token").write_text(OTHER_TOKEN)
    (auction.folder / "other.journal").write_bytes(OTHER_JOURNAL)
    for bidder in (0, 2):
        auction.bid(bidder, [0, 1])
    return auction


@pytest.mark.parametrize(("increment", "files", "words"), REFUSED.values(), ids=REFUSED)
def test_it_refuses(
    with_sheets: CloseAuction, increment: str, files: dict[str, str], words: str
) -> None:
    said = with_sheets.yes(1, increment, **files)
    assert said.status == 1
    assert said.errors.startswith("not closed: ")
    assert words in said.errors
    assert with_sheets.nothing_was_closed()


@pytest.mark.parametrize(
    "words",
    [("10", "--yes"), ("10", "--yes", "one"), ("10", "--ye", "1"), ("10", "20")],
    ids=" ".join,
)
def test_wrong_words_are_refused_with_the_usage(
    with_sheets: CloseAuction, words: tuple[str, ...]
) -> None:
    said = with_sheets.close(*words)
    assert (said.status, said.output) == (2, "")
    assert said.errors.startswith("usage: auction ")
    assert with_sheets.nothing_was_closed()
