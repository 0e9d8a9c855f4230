"""Persons of a bidder: their tokens, what nginx reads of them, and how they are revoked."""
import json
import pathlib
import re

import pytest

from auction import persons
from auction.persons import PersonsFault
from auction.ready import maps
from auction.ready.maps import Person, TokensFault
from tests.lib import setups
from tests.lib.disk import killed_at
from tests.lib.paths import auction

pytestmark = pytest.mark.early
SETUP = setups.setup(
    [setups.product("A", 9)], [setups.bidder(name, name * 16, 9) for name in ("X", "Y")]
)
ALICE, BOB = Person("X", "alice", "a" * 16), Person("X", "bob", "b" * 16)
CLERK = Person("Y", "clerk-1", "c" * 16)
LINE = re.compile('"Bearer (.*)" "(.*)";\n')


def lines(text: str) -> dict[str, str]:
    """A map of nginx."""
    assert LINE.sub("", text) == ""
    return dict(LINE.findall(text))


# ---- What nginx reads


def test_without_persons_each_bidder_has_its_own_token() -> None:
    assert lines(maps.bidders_map(SETUP)) == {"X" * 16: "X", "Y" * 16: "Y"}


def test_a_bidder_with_persons_has_their_tokens_instead_of_its_own() -> None:
    found = lines(maps.bidders_map(SETUP, [ALICE, BOB]))
    assert found == {ALICE.token: "X", BOB.token: "X", "Y" * 16: "Y"}


def test_a_person_has_the_token_of_its_bidder() -> None:
    found = lines(maps.persons_map(SETUP, [ALICE, CLERK]))
    assert found == {ALICE.token: "Bearer " + "X" * 16, CLERK.token: "Bearer " + "Y" * 16}


def test_a_person_is_named_by_its_token() -> None:
    assert lines(maps.by_map([ALICE, CLERK])) == {ALICE.token: "alice", CLERK.token: "clerk-1"}


def test_a_revoked_person_is_in_no_map() -> None:
    both = [ALICE._replace(token=""), BOB]
    texts = maps.bidders_map(SETUP, both), maps.persons_map(SETUP, both), maps.by_map(both)
    assert [set(lines(text)) for text in texts] == [{"Y" * 16, BOB.token}, {BOB.token}, {BOB.token}]


def test_a_bidder_whose_persons_are_all_revoked_has_no_token() -> None:
    """Its own token, which others may have seen by then, is not taken again."""
    assert set(lines(maps.bidders_map(SETUP, [ALICE._replace(token="")]))) == {"Y" * 16}


@pytest.mark.parametrize("token", ["x" * 16, setups.OPERATOR.lower(), ALICE.token.upper()], ids=str)
def test_a_token_of_someone_else_in_another_case_is_refused(token: str) -> None:
    """nginx ignores case, so it would name the wrong person."""
    with pytest.raises(TokensFault, match="case"):
        maps.bidders_map(SETUP, [ALICE, BOB._replace(token=token)])


# ---- Changes


def test_a_new_person_gets_a_token_of_its_own() -> None:
    one = persons.added(SETUP, [], "X", "alice")
    two = persons.added(SETUP, one, "X", "bob")
    assert [person[:2] for person in two] == [("X", "alice"), ("X", "bob")]
    assert len({person.token for person in two}) == 2
    assert all(re.fullmatch("[0-9a-f]{32}", person.token) for person in two)


def test_a_person_of_a_mock_auction_gets_a_token_of_its_kind(tmp_path: pathlib.Path) -> None:
    """The pages of a mock auction send no other token."""
    setup = {**SETUP, "operator": "MOCKOPERATOR0123"}
    [person] = persons.added(setup, [], "X", "alice")
    assert re.fullmatch("MOCK[0-9a-f]{32}", person.token)
    assert persons.write_letter(tmp_path, person).read_text().startswith("Mock auction: nothing")


REFUSED = {
    "an-unknown-bidder": ("Q", "alice"),
    "a-name-of-a-bidder": ("X", "Y"),
    "a-name-of-its-own-bidder-in-another-case": ("X", "x"),
    "a-quotation-mark": ("X", 'a" "Y'),
    "a-line-feed": ("X", "a\nb"),
    "a-long-name": ("X", "a" * 33),
    "no-name": ("X", ""),
    "one-with-a-token": ("X", "alice"),
    "one-with-a-token-in-another-case": ("X", "Alice"),
}


@pytest.mark.parametrize(("bidder", "name"), REFUSED.values(), ids=REFUSED)
def test_a_person_that_would_be_confused_with_another_is_refused(bidder: str, name: str) -> None:
    with pytest.raises(PersonsFault):
        persons.added(SETUP, [ALICE], bidder, name)


def test_the_same_clerk_has_a_token_for_each_bidder() -> None:
    both = persons.added(SETUP, [CLERK], "X", "clerk-1")
    assert [person.bidder for person in both] == ["Y", "X"]
    assert both[0].token != both[1].token


def test_a_revoked_person_gets_another_token() -> None:
    again = persons.added(SETUP, persons.revoked([ALICE], "X", "alice"), "X", "alice")
    assert [person[:2] for person in again] == [("X", "alice")]
    assert again[0].token not in ("", ALICE.token)


@pytest.mark.parametrize("whose", [("X", "bob"), ("Y", "alice"), ("X", "Alice")])
def test_only_a_person_with_a_token_is_revoked(whose: tuple[str, str]) -> None:
    with pytest.raises(PersonsFault, match="no person"):
        persons.revoked([ALICE, BOB._replace(token="")], *whose)


# ---- The files


def read_maps(folder: pathlib.Path) -> list[dict[str, str]]:
    """The maps of a folder: whose a token is, which one is handed on, and who has it."""
    names = ("bidders.map", "persons.map", "by.map")
    return [
        lines((folder / name).read_text()) if (folder / name).exists() else {} for name in names
    ]


# System calls: each of five files is opened, synced, and renamed, and its folder opened and synced.
STEPS = 5 * 5
CHANGES = {
    "the-first-person": ([], [ALICE]),
    "one-more": ([ALICE], [ALICE, BOB]),
    "one-revoked": ([ALICE, BOB], [ALICE._replace(token=""), BOB]),
    "the-last-one-revoked": ([ALICE], [ALICE._replace(token="")]),
    "replaced": ([ALICE], [ALICE._replace(token="d" * 16)]),
}


@pytest.mark.parametrize("step", range(1, STEPS + 1))
@pytest.mark.parametrize(("before", "after"), CHANGES.values(), ids=CHANGES)
def test_a_killed_change_leaves_no_token_without_its_person(
    tmp_path: pathlib.Path, before: list[Person], after: list[Person], step: int
) -> None:
    """nginx may be reloaded, or the machine started, at any moment."""
    persons.store(tmp_path, SETUP, before, before)
    with killed_at(step) as disk:
        persons.store(tmp_path, SETUP, before, after)
    assert disk.has_killed
    bidders, handed_on, by = read_maps(tmp_path)
    named = {one.token for one in (*before, *after) if one.token} & bidders.keys()
    assert named <= handed_on.keys() & by.keys()
    assert not after or "X" * 16 not in bidders or not before


@pytest.mark.parametrize(("before", "after"), CHANGES.values(), ids=CHANGES)
def test_a_change_is_whole_after_its_last_step(
    tmp_path: pathlib.Path, before: list[Person], after: list[Person]
) -> None:
    persons.store(tmp_path, SETUP, before, before)
    with killed_at(STEPS + 1) as disk:
        persons.store(tmp_path, SETUP, before, after)
    assert not disk.has_killed
    assert persons.read(tmp_path) == after
    texts = maps.bidders_map(SETUP, after), maps.persons_map(SETUP, after), maps.by_map(after)
    assert read_maps(tmp_path) == [lines(text) for text in texts]


@pytest.mark.parametrize("text", ["", "bidder,person\n", "bidder,person,token\nX,alice\n"])
def test_a_file_of_another_form_is_refused(tmp_path: pathlib.Path, text: str) -> None:
    (tmp_path / persons.FILE).write_text(text)
    with pytest.raises(PersonsFault, match="columns"):
        persons.read(tmp_path)


# ---- The command


@pytest.fixture
def folder(tmp_path: pathlib.Path) -> pathlib.Path:
    """The parts of an auction's folder that the command reads."""
    (tmp_path / "setup.json").write_text(json.dumps(SETUP))
    names = {"url": "http://127.0.0.1:9", "token": "operator.token", "journal": "auction.journal"}
    (tmp_path / "conductor.json").write_text(json.dumps({**names, "setup": "setup.json"}))
    return tmp_path


def say(folder: pathlib.Path, *words: str) -> str:
    """What the command prints."""
    done = auction("persons", folder, *words)
    assert done.returncode == 0, done.stderr
    return done.stdout


def test_the_command_adds_a_person_and_writes_a_letter(folder: pathlib.Path) -> None:
    printed = say(folder, "--add", "X", "alice")
    [person] = persons.read(folder)
    letter = folder / "letters/X.alice.txt"
    assert f"Token:   {person.token}\n" in letter.read_text()
    assert str(letter) in printed and "now reload nginx" in printed
    assert person.token not in printed


def test_files_with_tokens_are_for_their_owner_only(folder: pathlib.Path) -> None:
    say(folder, "--add", "X", "alice")
    names = ("persons.csv", "bidders.map", "persons.map", "by.map", "letters/X.alice.txt")
    assert {(folder / name).stat().st_mode & 0o777 for name in names} == {0o600}


def test_the_command_lists_persons_without_tokens(folder: pathlib.Path) -> None:
    say(folder, "--add", "X", "alice")
    say(folder, "--add", "Y", "clerk-1")
    say(folder, "--revoke", "X", "alice")
    assert say(folder) == "X alice (revoked)\nY clerk-1\n"


def test_the_command_refuses_a_name_that_is_a_bidder_s(folder: pathlib.Path) -> None:
    done = auction("persons", folder, "--add", "X", "y")
    assert done.returncode == 1
    assert "y is the name of a bidder" in done.stderr
    assert not (folder / "persons.csv").exists()
