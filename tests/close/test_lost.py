"""A closing whose request or reply is lost is sent again as it was, and closes one round."""
import itertools

import pytest

from tests.close.auction import CloseAuction, lists_each_once
from tests.close.relay import Loss
from tests.lib.waiting import wait_for


@pytest.fixture
def second(auction: CloseAuction) -> CloseAuction:
    """An auction in round 2, in which bidders 0 and 2 have a sheet in force."""
    (auction.folder / "other.token").write_text("NOTTHEOPERATORSTOKEN")
    for number, price in ((1, 100), (2, 110)):
        for bidder in (0, 2):
            auction.bid(bidder, [0, 1], number, price)
        if number == 1:
            assert auction.yes(1).status == 0
    auction.relay.closings.clear()
    return auction


# ---- The request is lost


@pytest.fixture
def without_request(second: CloseAuction) -> CloseAuction:
    """The request of a closing of round 2 is lost."""
    second.relay.lose = Loss.REQUEST
    said = second.yes(2)
    second.relay.lose = Loss.NOTHING
    assert said.status == 1
    assert "no reply to /v1/close" in said.errors
    assert second.round() == 2
    return second


def test_after_a_lost_request_another_increment_is_refused(without_request: CloseAuction) -> None:
    """The first closing may still arrive."""
    said = without_request.yes(2, "20")
    assert said.status == 1
    assert "not closed" in said.errors
    assert "with the increments [10]" in said.errors
    assert len(without_request.relay.closings) == 1


def test_after_a_lost_request_a_wrong_token_closes_nothing(without_request: CloseAuction) -> None:
    said = without_request.yes(2, token="other.token")
    assert said.status == 1
    assert "'token'" in said.errors
    assert without_request.round() == 2


def test_after_a_wrong_token_another_increment_is_still_refused(
    without_request: CloseAuction,
) -> None:
    without_request.yes(2, token="other.token")
    said = without_request.yes(2, "20")
    assert said.status == 1
    assert "with the increments [10]" in said.errors
    assert len(without_request.relay.closings) == 2


def test_after_a_wrong_token_the_same_closing_is_sent_again(without_request: CloseAuction) -> None:
    without_request.yes(2, token="other.token")
    assert without_request.yes(2).status == 0
    assert without_request.round() == 3
    assert len(set(without_request.relay.closings)) == 1


def test_the_call_after_a_lost_request_sends_the_same_closing(
    without_request: CloseAuction,
) -> None:
    assert without_request.yes(2).status == 0
    assert without_request.round() == 3
    assert len(without_request.relay.closings) == 2
    assert len(set(without_request.relay.closings)) == 1


# ---- The command is killed


def kill_while_sending(auction: CloseAuction) -> None:
    """Kills the command when its closing reaches the relay, which loses it."""
    auction.relay.lose = Loss.REQUEST
    count = len(auction.relay.closings)
    process = auction.begin_close("10", "--yes", 2)
    auction.relay.look = process.kill
    process.communicate(timeout=60)
    wait_for("the closing arrives", lambda: len(auction.relay.closings) == count + 1, 30)
    auction.relay.look = lambda: None
    auction.relay.lose = Loss.NOTHING


def test_the_call_after_a_kill_sends_the_same_closing(second: CloseAuction) -> None:
    kill_while_sending(second)
    assert second.round() == 2
    assert second.yes(2).status == 0
    assert second.round() == 3
    assert len(second.relay.closings) == 2
    assert len(set(second.relay.closings)) == 1


# ---- The reply is lost


@pytest.fixture(params=[Loss.REPLY, Loss.END_OF_REPLY], ids=["reply", "end-of-reply"])
def without_reply(second: CloseAuction, request: pytest.FixtureRequest) -> CloseAuction:
    """The reply to a closing of round 2 is lost, or its end is."""
    second.relay.lose = request.param
    said = second.yes(2)
    second.relay.lose = Loss.NOTHING
    assert said.status == 1
    assert "no reply to /v1/close" in said.errors
    assert second.round() == 3
    return second


def test_after_a_lost_reply_no_refusal_is_stored_as_a_page(without_reply: CloseAuction) -> None:
    said = without_reply.yes(2, token="other.token")
    assert said.status == 1
    assert "'token'" in said.errors
    assert not (without_reply.kept / "results-2.json").exists()


def test_the_call_after_a_lost_reply_stores_the_pages_and_closes_nothing(
    without_reply: CloseAuction,
) -> None:
    said = without_reply.yes(2)
    assert said.status == 1
    assert "round 2 was closed before, and its pages are stored now" in said.errors
    assert without_reply.stored("results-2.json")["round"] == 3
    assert without_reply.round() == 3
    assert len(without_reply.relay.closings) == 1


# ---- All of it


def test_four_sendings_of_one_closing_close_one_round(without_request: CloseAuction) -> None:
    auction = without_request
    auction.yes(2, token="other.token")
    kill_while_sending(auction)
    auction.relay.lose = Loss.END_OF_REPLY
    auction.yes(2)
    auction.relay.lose = Loss.NOTHING
    auction.yes(2)
    assert len(auction.relay.closings) == 4
    assert len(set(auction.relay.closings)) == 1
    assert lists_each_once(auction.ties(2), list(itertools.product(range(3), range(2))))
    assert auction.round() == 3
