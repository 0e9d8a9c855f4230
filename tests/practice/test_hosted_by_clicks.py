"""A hosted game by clicks: from the host's address to round 2."""
import json

import pytest

from tests.browser.window import Window
from tests.practice.hosting import Small
from tests.practice.test_by_clicks import bid, submit

pytestmark = pytest.mark.needs("chromium", "chromedriver", "selenium", "prlimit")


def test_a_person_begins_a_game_and_bids(x: Window, small: Small) -> None:
    x.open(f"http://127.0.0.1:{small.client.port}/")
    x.find("form button").click()
    x.until("the game is ready", lambda: x.at("open").is_displayed())
    token = x.text("token")
    x.click("open")
    x.until("the page asks for the token", lambda: x.at("token").is_enabled())
    x.at("token").send_keys(token)
    x.find("#door button").click()
    x.until("the table is there", lambda: x.rows("body"))
    (game,) = small.host.games.values()
    values = json.loads((game.place.folder / "values.json").read_text())
    submit(x, bid(x, list(values.values()), 1))
    x.until("round 2", lambda: "2" in x.text("round"))
    x.view("times")
    x.says("announced", "Round 1 is closed.")
