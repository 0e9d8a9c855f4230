"""How the pages come to a browser: with all their modules, or with words that one is missing."""
import shutil

import pytest

from auction.pages import copy_pages
from tests.browser.auction import OPERATORS, Auction, example
from tests.browser.conftest import Begin
from tests.browser.people import enter
from tests.browser.published import Published
from tests.browser.window import Window
from tests.lib.paths import TOP

PAGES = {"bidder": "", "operator": OPERATORS, "public": "results.html"}


@pytest.fixture(scope="module")
def auction(begin_once: Begin) -> Auction:
    return begin_once(example("one_product"))


def is_loading_seen(window: Window) -> bool:
    script = "return getComputedStyle(document.getElementById('loading')).visibility"
    return bool(window.run(script) == "visible")


@pytest.mark.parametrize("page", PAGES.values(), ids=PAGES)
def test_a_missing_module_is_said(auction: Auction, x: Window, page: str) -> None:
    x.cdp("Network.enable")
    x.cdp("Network.setBlockedURLs", urls=["*/clock.js"])
    try:
        x.open(auction.address(page))
        x.until("it is said", lambda: is_loading_seen(x))
        if page != "results.html":
            assert not x.find("#door button").is_enabled(), "a token would get no answer"
    finally:
        x.cdp("Network.setBlockedURLs", urls=[])
        x.browser.log()


@pytest.mark.parametrize("page", PAGES.values(), ids=PAGES)
def test_nothing_is_said_if_all_modules_are_there(auction: Auction, x: Window, page: str) -> None:
    x.open(auction.address(page))
    x.until("it is gone", lambda: not x.run("return document.getElementById('loading')"))


@pytest.mark.parametrize("page", PAGES.values(), ids=PAGES)
def test_nothing_that_a_page_asks_for_is_missing(auction: Auction, x: Window, page: str) -> None:
    """Also its icon. The name of the auction and a timetable are published."""
    day = Published(auction)
    day.put("public/names.json", {"title": "Auction"})
    day.announce("Round 1 is open.")
    day.timetable(1, (-60, 900))
    x.browser.log()
    x.open(auction.address(page))
    x.until("announcements are there", lambda: "is open" in x.text("announced"))
    asked = x.run("return performance.getEntriesByType('resource').map(each => each.name)")
    assert [line for line in x.browser.log() if "404" in line] == []
    icon = x.run("return document.querySelector('link[rel=icon]').href")
    assert auction.head(icon)[0] == 200 and asked


def test_files_of_a_version_are_not_asked_for_again(begin: Begin, x: Window) -> None:
    auction = begin(example("one_product"))
    shutil.rmtree(auction.folder / "web")
    copy_pages(TOP / "web", auction.folder / "web")
    for path in (auction.folder / "web").rglob("*"):
        path.chmod(0o755 if path.is_dir() else 0o644)
    enter(auction, x)
    enter(auction, x)
    sizes = x.run(
        """return performance.getEntriesByType('resource')
        .filter(each => /\\/v[0-9a-f]{12}\\//.test(each.name)).map(each => each.transferSize)"""
    )
    assert len(sizes) > 15 and set(sizes) == {0}
