"""How the pages of a hosted practice look, for a screen reader, the keyboard, and in the dark."""
from collections.abc import Callable

import pytest

from tests.browser import scripts
from tests.browser.window import Window
from tests.practice.hosting import Small

pytestmark = pytest.mark.needs("chromium", "chromedriver", "selenium", "prlimit")
LEAST_CONTRAST = 4.5


def welcome(x: Window, small: Small) -> None:
    x.open(f"http://127.0.0.1:{small.client.port}/")


def begun(x: Window, small: Small) -> None:
    welcome(x, small)
    x.find("form button").click()
    x.until("the game is ready", lambda: x.at("open").is_displayed())


def refused(x: Window, small: Small) -> None:
    small.client.begin()
    small.client.begin()
    welcome(x, small)
    x.find("form button").click()
    x.until("there is no place", lambda: "No game has begun" in x.find("main").text)


def ended(x: Window, small: Small) -> None:
    x.open(f"http://127.0.0.1:{small.client.port}/g/{'A' * 22}/index.html")
    x.until("the game is gone", lambda: "no such game" in x.find("main").text)


@pytest.mark.parametrize("state", [welcome, begun, refused, ended], ids=lambda one: one.__name__)
def test_a_page_of_the_host_is_for_everyone(
    x: Window, small: Small, state: Callable[[Window, Small], None]
) -> None:
    state(x, small)
    for wide in (1280, 320):
        x.size(wide, 900)
        x.settle()
        assert x.run(scripts.AUDIT) == []
        assert x.run(scripts.SMALL) == []
        assert not x.run("return document.documentElement.scrollWidth > innerWidth")
    for dark in (False, True):
        x.dark(dark)
        x.settle()
        ratio, what = x.run(scripts.CONTRAST)
        assert ratio >= LEAST_CONTRAST, what
    x.dark(False)
