"""What must be so once an auction under the conductor has ended."""
import json
import pathlib
from typing import Any

from auction.formats.notices import read_notices
from auction.formats.ties import Commitment, check_ties
from tests.lib.conducted import SECRET, ConductedAuction


def finish(auction: ConductedAuction, step: float = 10) -> list[str]:
    """Plays to the end, in which nothing goes wrong any more. Returns the audit without digests."""
    auction.play(step=step)
    return check(auction)


def check(auction: ConductedAuction) -> list[str]:
    """Checks an auction that has ended, however often its conductor was killed.

    Returns the audit without digests.
    """
    audit, rounds = auction.audit(), range(1, auction.rounds + 1)
    digests = [line.split()[2] for line in audit if line.startswith("closed ")]
    assert len(digests) == auction.rounds, audit
    pages = [auction.page(f"public/rounds/{number}.json") for number in rounds]
    assert [page["digest"] for page in pages] == digests
    assert [page["ended"] for page in pages] == [False] * (auction.rounds - 1) + [True]
    doors = [file.name for file in (auction.folder / "gate").iterdir()]
    assert all(name.startswith("curtain-") for name in doors)
    check_announcements(auction, digests)
    check_files(auction, rounds)
    check_notices(auction, digests)
    check_numbers(auction, pages)
    return [line for line in audit if not line.startswith(("closed", "journal"))]


def check_announcements(auction: ConductedAuction, digests: list[str]) -> None:
    """Each closing is announced once with its digest, and the timetable says so."""
    made = auction.announcements()
    assert [one["number"] for one in made] == list(range(1, len(made) + 1))
    assert len({one["key"] for one in made}) == len(made)
    closings = [one for one in made if one["key"].startswith("closed-")]
    assert [(one["key"], one["text"].split()[-1]) for one in closings] == [
        (f"closed-{number}", f"{digest}.") for number, digest in enumerate(digests, 1)
    ]
    table = auction.page("public/timetable.json")
    found = [table[key] for key in ("ended", "announcements", "round", "paused")]
    assert found == [True, len(made), auction.rounds, None]


def check_notices(auction: ConductedAuction, digests: list[str]) -> None:
    """The notices are one chain, which has what happened once, and what was announced."""
    public = auction.folder / "public"
    commitment = (public / "commitment.json").read_bytes()
    entries = read_notices(public / "notices.jsonl", commitment)
    said = [(entry.kind, entry.says) for entry in entries]
    once = [one for one in said if one[0] not in ("timetable", "increments", "act", "frozen")]
    assert all(once.count(one) == 1 for one in once), once
    frozen = set[int]()
    for kind, says in said:
        if kind == "opened":
            frozen.discard(says["round"])
        elif kind == "frozen":
            assert says["round"] not in frozen, "a window's sheets are frozen twice"
            frozen.add(says["round"])
    assert [says["digest"] for kind, says in said if kind == "closed"] == digests
    rounds = [says["round"] for kind, says in said if kind == "published"]
    assert rounds == list(range(1, len(digests) + 1))
    made = [says for kind, says in said if kind == "announcement"]
    assert made == [{"key": one["key"], "text": one["text"]} for one in auction.announcements()]


def check_files(auction: ConductedAuction, rounds: range) -> None:
    """Each round's files are stored with the journal's closings, and none is half-written."""
    kept = auction.folder / "kept"
    kinds = ("closing", "round", "results")
    names = {f"{kind}-{number}.json" for kind in kinds for number in rounds}
    names |= {pathlib.Path(name).name for name in SECRET} | {"closings.jsonl"}
    assert {file.name for file in kept.glob("[!.]*")} == names
    bodies = [json.loads(line) for line in (kept / "closings.jsonl").read_text().splitlines()]
    assert bodies == [auction.page(f"kept/closing-{number}.json") for number in rounds]
    assert [body["round"] for body in bodies] == list(rounds)
    folders = [auction.folder / name for name in ("public", "public/rounds", "kept", "state")]
    left = {file.name for folder in folders for file in folder.glob("*.new")}
    assert left <= {"look.json.new"}


def check_numbers(auction: ConductedAuction, pages: list[dict[str, Any]]) -> None:
    """Each round has the tie-breaking numbers that were committed, by its published seed."""
    chain = Commitment.read(auction.folder / "public/commitment.json").chain
    assert chain is not None
    for number, page in enumerate(pages, 1):
        ties = auction.page(f"kept/closing-{number}.json")["ties"]
        check_ties(chain, number, bytes.fromhex(page["seed"]), ties, 2, 1)
