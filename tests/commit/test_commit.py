"""`auction commit` makes what is missing once, and replaces nothing."""
import hashlib
import json
import pathlib
import time

import pytest

from auction.conductor import commitment
from auction.formats.setup import Setup
from tests.close.auction import WITHOUT_SHEETS, CloseAuction, Said


def committed(auction: CloseAuction, *words: str) -> Said:
    """Runs `auction commit`."""
    done = auction.run("commit", auction.setup_file, auction.kept, auction.public, *words)
    return Said(done.returncode, done.stdout, done.stderr)


def files_of(auction: CloseAuction) -> list[bytes]:
    """The chain, the key, and the commitment."""
    secret = [auction.kept / name for name in ("chain.json", "receipts.pem")]
    return [file.read_bytes() for file in (*secret, auction.public / "commitment.json")]


def test_a_second_call_prints_the_published_commitment(small: CloseAuction) -> None:
    before = files_of(small)
    said = committed(small)
    assert (said.status, said.output) == (0, before[2].decode())
    assert files_of(small) == before


def test_the_secrets_are_for_their_owner_only(small: CloseAuction) -> None:
    assert {file.stat().st_mode & 0o777 for file in small.kept.glob("*")} == {0o600}


def test_everyone_may_read_the_commitment(small: CloseAuction) -> None:
    assert (small.public / "commitment.json").stat().st_mode & 0o777 == 0o644


REFUSED = {
    "no-ties": ("--no-ties",),
    "a-draw-of-two-lines": ("--draw", "\n"),
    "a-draw-that-is-too-long": ("--draw", "x" * 201),
    "a-draw-without-words": ("--draw", ""),
    "a-draw-without-ties": ("--no-ties", "--draw", "1"),
}


@pytest.mark.parametrize("words", REFUSED.values(), ids=REFUSED)
def test_other_words_after_the_commitment_are_refused(
    small: CloseAuction, words: tuple[str, ...]
) -> None:
    before = files_of(small)
    assert committed(small, *words).status == 1
    assert files_of(small) == before


# ---- Files that are lost, or of another auction


@pytest.mark.parametrize("name", ["chain.json", "receipts.pem"])
def test_a_lost_secret_is_reported_and_not_made_again(small: CloseAuction, name: str) -> None:
    (small.kept / name).unlink()
    said = committed(small)
    assert said.status == 1
    assert "lost" in said.errors
    assert not (small.kept / name).exists()


def test_without_the_chain_nothing_is_closed(small: CloseAuction) -> None:
    (small.kept / "chain.json").unlink()
    small.all_bid()
    said = small.yes(1)
    assert said.status == 1
    assert said.errors.startswith("not closed: there is no")
    assert small.round() == 1


def test_a_closing_does_not_need_the_key_of_receipts(small: CloseAuction) -> None:
    (small.kept / "receipts.pem").unlink()
    small.all_bid()
    assert small.yes(1).status == 0


@pytest.fixture
def with_other_chain(small: CloseAuction) -> CloseAuction:
    """An auction whose chain is of another set-up."""
    chain = small.kept / "chain.json"
    digest = Setup.read(small.setup_file).digest
    text = chain.read_text()
    assert text.count(digest) == 1
    chain.write_text(text.replace(digest, "0" * 64))
    return small


def test_the_chain_of_another_set_up_is_refused_by_commit(with_other_chain: CloseAuction) -> None:
    said = committed(with_other_chain)
    assert said.status == 1
    assert "another set-up" in said.errors


def test_the_chain_of_another_set_up_is_refused_by_close(with_other_chain: CloseAuction) -> None:
    with_other_chain.all_bid()
    said = with_other_chain.yes(1)
    assert said.status == 1
    assert "another set-up" in said.errors
    assert with_other_chain.round() == 1


def test_another_commitment_does_not_replace_the_published_one(
    small: CloseAuction, tmp_path: pathlib.Path
) -> None:
    before, setup = files_of(small), Setup.read(small.setup_file)
    others = commitment.Places(tmp_path / "others", tmp_path / "elsewhere")
    commitment.make(others, setup)
    with pytest.raises(commitment.CommitmentFault):
        commitment.make(commitment.Places(others.kept, small.public), setup)
    assert files_of(small) == before


# ---- What is promised


def test_a_draw_after_the_first_closing_is_refused(small: CloseAuction) -> None:
    small.all_bid()
    assert small.yes(1).status == 0
    assert committed(small, "--draw", "1 2 3").status == 1


def test_no_ties_is_refused_if_a_closing_can_list_all_pairs(small: CloseAuction) -> None:
    small.all_bid()
    assert small.yes(1).status == 0
    said = small.yes(2, "10", WITHOUT_SHEETS, "--no-ties")
    assert said.status == 1
    assert "promised" in said.errors
    assert small.round() == 2


# ---- A draw


DRAW = ("--draw", "5 17 33")


def test_a_draw_changes_no_byte_of_the_commitment(small: CloseAuction) -> None:
    before = (small.public / "commitment.json").read_bytes()
    said = committed(small, *DRAW)
    assert said.status == 0
    assert (small.public / "commitment.json").read_bytes() == before
    digest = hashlib.sha256(before).hexdigest()
    assert said.output == f'{{"commitment":"{digest}","draw":"5 17 33"}}\n'
    assert (small.public / "draw.json").read_text() == said.output


def test_a_second_draw_is_refused(small: CloseAuction) -> None:
    assert committed(small, *DRAW).status == 0
    before = (small.public / "draw.json").read_bytes()
    assert committed(small, "--draw", "1 2 3").status == 1
    assert (small.public / "draw.json").read_bytes() == before


@pytest.mark.parametrize(
    ("opens", "status"),
    [("2020-01-01T15:00:00Z", 1), ("2220-01-01T15:00:00Z", 0)],
    ids=["open", "not-open"],
)
def test_a_draw_is_taken_only_before_the_first_window_opens(
    small: CloseAuction, opens: str, status: int
) -> None:
    windows = [{"round": 1, "opens": opens, "closes": "2221-01-01T00:00:00Z"}]
    (small.public / "timetable.json").write_text(json.dumps({"windows": windows}))
    assert committed(small, *DRAW).status == status
    assert (small.public / "draw.json").exists() == (status == 0)


# ---- A draw after sheets


def drawn(small: CloseAuction) -> str:
    """Why a draw is refused, or nothing."""
    return committed(small, "--draw", "5 17 33").errors


def test_a_draw_is_refused_once_a_window_of_round_1_was_announced_open(
    small: CloseAuction,
) -> None:
    """Also if the timetable says now that round 1 is open later."""
    made = [{"key": "open-1-1795867200", "number": 1, "text": "It is open.", "time": "2026-11-28"}]
    (small.public / "announcements.json").write_text(json.dumps({"announcements": made}))
    windows = [{"round": 1, "opens": "2999-01-01T00:00:00Z", "closes": "2999-01-01T00:01:00Z"}]
    (small.public / "timetable.json").write_text(json.dumps({"windows": windows}))
    assert "before the first window opens" in drawn(small)


@pytest.mark.parametrize("name", ["open", "NOW"])
def test_a_draw_is_refused_while_the_gate_is_open(small: CloseAuction, name: str) -> None:
    (small.folder / "gate").mkdir()
    tens = [int(time.time()) // 10 + more for more in range(60)]
    for file in [name] if name == "open" else map(str, tens):
        (small.folder / "gate" / file).touch()
    assert "before the first window opens" in drawn(small)


def test_a_draw_is_refused_once_a_sheet_is_in_the_journal(small: CloseAuction) -> None:
    settings = {"url": "", "setup": "setup.json", "token": "operator.token"}
    settings["journal"] = "auction.journal"
    (small.folder / "conductor.json").write_text(json.dumps(settings))
    small.all_bid()
    assert "before the first window opens" in drawn(small)


def test_a_draw_is_taken_before_the_first_sheet(small: CloseAuction) -> None:
    settings = {"url": "", "setup": "setup.json", "token": "operator.token"}
    settings["journal"] = "auction.journal"
    (small.folder / "conductor.json").write_text(json.dumps(settings))
    assert drawn(small) == ""
