"""The desk of a small auction, whose time passes only if a test says so."""
import json
import pathlib
import secrets
from collections.abc import Callable, Iterator
from typing import Any

import pytest

from auction.conductor.report import State
from auction.desk.desk import Desk
from tests.lib.conducted import ConductedAuction, Times, conducted
from tests.lib.site import SECOND

Begin = Callable[..., "Visited"]


class Visited:
    """An auction with a desk, at which the operator and a second person are."""

    def __init__(self, auction: ConductedAuction) -> None:
        self.auction = auction
        (auction.folder / "desk.map").write_text(f'"Bearer {SECOND}" second;\n')
        self.desk = self.fresh()

    def fresh(self) -> Desk:
        """A desk that is started again."""
        return Desk(self.auction.folder, self.auction.clock, self.auction.lines.append)

    def page(self, who: str = "operator") -> dict[str, Any]:
        """What a person's page shows now."""
        status, page = self.desk.page(who)
        assert status == 200, page
        return page

    def request(self, act: str, shown: dict[str, Any], **more: Any) -> dict[str, Any]:
        """The request of a click, on a page that shows this."""
        names = ("typed", "of", "key", "stamp", "round")
        parts = {"typed": "", "of": "", "key": secrets.token_hex(16)}
        parts |= {"round": shown["round"], "stamp": shown["stamp"]}
        parts |= {name: more.pop(name) for name in names if name in more}
        return {"act": act, **parts, "given": more}

    def send(self, request: object, who: str = "operator") -> tuple[int, dict[str, Any]]:
        return self.desk.act(who, json.dumps(request).encode())

    def click(self, act: str, who: str = "operator", **more: Any) -> tuple[int, dict[str, Any]]:
        """A click on a page of now."""
        return self.send(self.request(act, self.page(who), **more), who)

    def confirm(self, who: str = "second", typed: str = "") -> tuple[int, dict[str, Any]]:
        """A second person's word on the act that waits."""
        shown = self.page(who)
        assert shown["waiting"], "no act waits"
        return self.click("confirm", who, of=shown["waiting"]["key"], typed=typed)

    def outcomes(self) -> list[tuple[str, str]]:
        """Who did what, by the log, without what has begun only."""
        lines = [act for act in self.desk.log.lines() if act.outcome != "begun"]
        return [(line.who, line.outcome) for line in lines]

    def play(self, state: State) -> None:
        self.auction.play(state)


@pytest.fixture
def begin(program: pathlib.Path) -> Iterator[Begin]:
    """Begins auctions with a desk."""
    opened = []

    def one(windows: Times | None = None, **options: Any) -> Visited:
        given = {} if windows is None else {"windows": windows}
        context = conducted(program, **given, **options)
        opened.append(context)
        return Visited(context.__enter__())

    yield one
    for context in opened:
        context.__exit__(None, None, None)


@pytest.fixture
def visited(begin: Begin) -> Visited:
    """An auction in the window of round 1."""
    found = begin()
    found.play(State.OPEN)
    return found
