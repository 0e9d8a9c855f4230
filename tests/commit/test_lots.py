"""Lots: the order of bidders follows from a committed seed and a draw, and another one is shown."""
import hashlib
import hmac
import json
import pathlib
import shutil
import stat
from collections.abc import Callable
from typing import Any

import pytest

from auction.verify.case import Absent, Case, Failed
from auction.verify.promised import check_lots
from tests.lib import setups
from tests.lib.paths import auction

pytestmark = pytest.mark.early
NAMES = ["Zoe", "Ann", "Bob", "Kim", "Max"]
DRAW = "5 17 33"


def document() -> bytes:
    bidders = [setups.bidder(name, name[0] * 16, 4) for name in NAMES]
    return json.dumps(setups.setup([setups.product("A", supply=3, cap=2)], bidders)).encode()


class Drawing:
    """The folder of a drawing, with its set-up next to it."""

    def __init__(self, folder: pathlib.Path) -> None:
        self.setup, self.folder = folder / "setup.json", folder / "lots"
        self.setup.write_bytes(document())

    def run(self, *words: str) -> tuple[int, str]:
        done = auction("lots", self.setup, self.folder, *words)
        return done.returncode, done.stdout + done.stderr

    def value(self, name: str) -> Any:
        return json.loads((self.folder / name).read_text())

    def order(self) -> list[str]:
        return [bidder["name"] for bidder in self.value("setup.json")["bidders"]]


@pytest.fixture
def drawing(tmp_path: pathlib.Path) -> Drawing:
    return Drawing(tmp_path)


@pytest.fixture(scope="module")
def drawn(tmp_path_factory: pytest.TempPathFactory) -> Drawing:
    """A drawing that is done."""
    made = Drawing(tmp_path_factory.mktemp("drawn"))
    assert made.run()[0] == 0
    assert made.run("--draw", DRAW)[0] == 0
    return made


# ---- The command


def test_before_the_draw_it_publishes_the_names_and_the_seed_s_digest(drawing: Drawing) -> None:
    status, printed = drawing.run()
    seed = bytes.fromhex(drawing.value("seed.json")["seed"])
    value = {"bidders": sorted(NAMES), "seed": hashlib.sha256(seed).hexdigest()}
    assert (status, json.loads(printed)) == (0, value)
    assert drawing.value("lots.json") == value
    assert not (drawing.folder / "order.json").exists()


def test_its_seed_is_for_its_owner_only(drawing: Drawing) -> None:
    drawing.run()
    assert stat.S_IMODE((drawing.folder / "seed.json").stat().st_mode) == 0o600
    assert stat.S_IMODE(drawing.folder.stat().st_mode) == 0o700


def test_the_order_is_that_of_the_lots(drawn: Drawing) -> None:
    """A lot is HMAC-SHA-256 of the name, a space, and the draw, by the seed."""
    seed = bytes.fromhex(drawn.value("order.json")["seed"])
    lots = {
        name: hmac.new(seed, f"{name} {DRAW}".encode(), hashlib.sha256).digest() for name in NAMES
    }
    assert drawn.order() == sorted(NAMES, key=lambda name: lots[name])


def test_only_the_order_of_the_set_up_changes(drawn: Drawing) -> None:
    before, after = json.loads(document()), drawn.value("setup.json")
    key: Callable[[Any], str] = lambda bidder: bidder["name"]
    assert sorted(after.pop("bidders"), key=key) == sorted(before.pop("bidders"), key=key)
    assert before == after


def test_called_again_it_says_the_same(drawn: Drawing) -> None:
    before = {path: path.read_bytes() for path in drawn.folder.iterdir()}
    assert drawn.run()[0] == 0
    assert drawn.run("--draw", DRAW)[0] == 0
    assert {path: path.read_bytes() for path in drawn.folder.iterdir()} == before


REFUSED: dict[str, tuple[list[list[str]], str]] = {
    "a-draw-before-the-lots-are-published": ([["--draw", DRAW]], "publish lots.json first"),
    "a-draw-without-words": ([[], ["--draw", ""]], "give the result of the draw"),
    "a-draw-of-two-lines": ([[], ["--draw", "5\n17"]], "printable ASCII"),
    "another-draw": ([[], ["--draw", DRAW], ["--draw", "1 2 3"]], "says something else"),
}


@pytest.mark.parametrize("calls, words", REFUSED.values(), ids=list(REFUSED))
def test_it_refuses(drawing: Drawing, calls: list[list[str]], words: str) -> None:
    *earlier, last = calls
    for call in earlier:
        assert drawing.run(*call)[0] == 0
    status, printed = drawing.run(*last)
    assert status == 1
    assert words in printed


def test_it_refuses_other_bidders_after_the_lots(drawing: Drawing) -> None:
    drawing.run()
    drawing.setup.write_bytes(document().replace(b"Zoe", b"Aaa"))
    assert drawing.run("--draw", DRAW)[0] == 1


def test_it_refuses_to_draw_a_lost_seed_again(drawing: Drawing) -> None:
    drawing.run()
    (drawing.folder / "seed.json").unlink()
    status, printed = drawing.run()
    assert (status, "is lost" in printed) == (1, True)


# ---- The check


class Published:
    """What is published of an auction without numbers, made from the drawn set-up."""

    def __init__(self, drawn: Drawing, folder: pathlib.Path) -> None:
        self.folder, self.setup = folder, folder / "setup.json"
        shutil.copy(drawn.folder / "setup.json", self.setup)
        self.public = folder / "public"
        self.public.mkdir()
        for name in ("lots.json", "order.json"):
            shutil.copy(drawn.folder / name, self.public / name)
        self.copy = folder / "copy.json"
        shutil.copy(drawn.folder / "lots.json", self.copy)
        self.commit()

    def commit(self, *words: str) -> None:
        done = auction("commit", self.setup, self.folder / "kept", self.public, "--no-ties", *words)
        assert done.returncode == 0, done

    def check(self, has_copy: bool = True) -> str:
        copy = self.copy if has_copy else None
        return check_lots(Case(self.setup, self.folder / "journal", self.public, lots=copy))

    def change(self, name: str, **parts: Any) -> None:
        path = self.public / name
        value = {**json.loads(path.read_text()), **parts}
        path.write_text(json.dumps(value, separators=(",", ":")) + "\n")


@pytest.fixture
def public(drawn: Drawing, tmp_path: pathlib.Path) -> Published:
    return Published(drawn, tmp_path)


def test_the_drawn_order_holds_and_it_says_whose_lots_it_used(public: Published) -> None:
    assert str(public.copy) in public.check()
    assert str(public.public / "lots.json") in public.check(has_copy=False)


def friend_first(public: Published) -> None:
    """The operator puts the last bidder first."""
    value = json.loads(public.setup.read_text())
    value["bidders"].insert(0, value["bidders"].pop())
    public.setup.write_text(json.dumps(value))


def one_bidder_more(public: Published) -> None:
    value = json.loads(public.setup.read_text())
    value["bidders"].append(setups.bidder("Qed", "q" * 16, 4))
    public.setup.write_text(json.dumps(value))


def other_lots(public: Published) -> None:
    """The operator draws a seed again after the draw."""
    made = Drawing(public.folder)
    made.setup, made.folder = public.setup, public.folder / "again"
    assert made.run()[0] == 0
    assert made.run("--draw", DRAW)[0] == 0
    for name in ("lots.json", "order.json"):
        shutil.copy(made.folder / name, public.public / name)
    shutil.copy(made.folder / "setup.json", public.setup)


FORGED: dict[str, tuple[Callable[[Published], None], str]] = {
    "a-friend-first": (friend_first, "by the lots it is"),
    "one-bidder-more": (one_bidder_more, "other bidders"),
    "lots-of-after-the-draw": (other_lots, "has other lots than"),
    "another-draw": (lambda public: public.change("order.json", draw="1 2 3"), "by the lots it is"),
    "another-seed": (
        lambda public: public.change("order.json", seed="0" * 64),
        "the seed of order.json is not the one",
    ),
    "order-of-other-lots": (
        lambda public: public.change("order.json", lots="0" * 64),
        "is of other lots",
    ),
    "no-order": (lambda public: (public.public / "order.json").unlink(), "has lots.json only"),
    "no-lots": (lambda public: (public.public / "lots.json").unlink(), "has order.json only"),
}


@pytest.mark.parametrize("forge, words", FORGED.values(), ids=list(FORGED))
def test_a_forged_order_is_shown(
    public: Published, forge: Callable[[Published], None], words: str
) -> None:
    forge(public)
    with pytest.raises(Failed, match=words):
        public.check()


def test_no_lots_at_all_are_reported(public: Published) -> None:
    for name in ("lots.json", "order.json"):
        (public.public / name).unlink()
    with pytest.raises(Absent, match="the operator may have put a friend there"):
        public.check()


def test_a_record_alone_does_not_prove_when_lots_were_published(public: Published) -> None:
    (public.public / "SHA256SUMS").write_text("")
    with pytest.raises(Absent, match="give --lots"):
        public.check(has_copy=False)
    assert "nobody chose the order" in public.check()
