"""A mock auction of an honest operator verifies, with its winners and its timetable."""
import json
import pathlib

import pytest

from auction.conductor import commands
from auction.conductor.report import State
from tests.conductor.test_notices import faults_of
from tests.lib import conducted, setups
from tests.lib.http import reply_to, text_of

OPERATOR = "MOCKOPERATORTOKEN"
TOKENS = {name: "MOCK" + 12 * name for name in "XY"}


def test_a_mock_auction_verifies(program: pathlib.Path, monkeypatch: pytest.MonkeyPatch) -> None:
    monkeypatch.setattr(conducted, "OPERATOR", OPERATOR)
    bidders = [setups.bidder(name, token, 2) for name, token in TOKENS.items()]
    document = {**setups.setup([setups.product("A", 2, 100)], bidders), "operator": OPERATOR}
    with conducted.conducted(program, [(60, 90)], rounds=1, document=document) as auction:
        auction.play(State.OPEN, bidders="")
        for token in TOKENS.values():
            bids = [{"price": 100, "product": 0, "quantity": 1}]
            body = json.dumps({"bids": bids, "round": 1}).encode()
            reply = reply_to(auction.port, text_of("PUT /v1/me/bids", token, body))
            assert b'"accepted":true' in reply
        auction.play(bidders="")
        commands.winners(auction.context())
        for name in ("winners", "timetable"):
            assert auction.page(f"public/{name}.json")["mock"] is True
        assert not faults_of(auction)
