"""Chromium, auctions behind nginx, and a window for each person.

A process has two browsers at most: bidders X and the operator are in one, bidder Y is in another.
"""
import pathlib
import shutil
from collections.abc import Callable, Iterator
from typing import Any

import pytest

from tests.browser.auction import Auction
from tests.browser.window import Browser, Window

Begin = Callable[..., Auction]


def pytest_addoption(parser: pytest.Parser) -> None:
    parser.addoption(
        "--pictures", type=pathlib.Path, help="the folder that gets the pictures of the documents"
    )


def pytest_collection_modifyitems(items: list[pytest.Item]) -> None:
    for item in items:
        if item.path.parent == pathlib.Path(__file__).parent:
            item.add_marker(
                pytest.mark.needs("chromium", "chromedriver", "selenium", "nginx", "openssl")
            )


@pytest.fixture
def pictures(request: pytest.FixtureRequest) -> pathlib.Path | None:
    """The folder that gets the pictures of the documents, if there is one."""
    folder = request.config.getoption("pictures", None)
    return folder.absolute() if folder else None


# ---- Browsers and windows


def browser_of(factory: pytest.TempPathFactory, name: str) -> Iterator[Browser]:
    browser = Browser(factory.mktemp(name))
    yield browser
    browser.end()


@pytest.fixture(scope="session")
def first_browser(tmp_path_factory: pytest.TempPathFactory) -> Iterator[Browser]:
    yield from browser_of(tmp_path_factory, "first")


@pytest.fixture(scope="session")
def second_browser(tmp_path_factory: pytest.TempPathFactory) -> Iterator[Browser]:
    yield from browser_of(tmp_path_factory, "second")


def window_of(browser: Browser) -> Iterator[Window]:
    """A window. At its end the browser's log has no fault of a page, and nothing that the pages'
    security forbids. That a server is gone is no fault: other windows may still ask it.
    """
    window = browser.window()
    yield window
    window.close()
    others = ("status of", "net::ERR_")
    assert [line for line in browser.log() if not any(each in line for each in others)] == []


@pytest.fixture
def x(first_browser: Browser) -> Iterator[Window]:
    """A window of bidder X."""
    yield from window_of(first_browser)


@pytest.fixture
def operator(first_browser: Browser) -> Iterator[Window]:
    """A window of the operator."""
    yield from window_of(first_browser)


@pytest.fixture
def y(second_browser: Browser) -> Iterator[Window]:
    """A window of bidder Y."""
    yield from window_of(second_browser)


@pytest.fixture
def downloads(first_browser: Browser) -> pathlib.Path:
    """The folder of what X and the operator download, which is empty at first."""
    for file in first_browser.downloads.iterdir():
        file.unlink()
    return first_browser.downloads


# ---- Auctions


def auctions(program: pathlib.Path) -> Iterator[Begin]:
    begun: list[Auction] = []

    def begin(setup: dict[str, Any], *, has_ties: bool = False) -> Auction:
        begun.append(Auction(program, setup, has_ties))
        return begun[-1]

    yield begin
    for auction in begun:
        auction.stop()
        shutil.rmtree(auction.folder, ignore_errors=True)


@pytest.fixture
def begin(program: pathlib.Path) -> Iterator[Begin]:
    """Begins auctions of a test."""
    yield from auctions(program)


@pytest.fixture(scope="module")
def begin_once(program: pathlib.Path) -> Iterator[Begin]:
    """Begins auctions that the tests of a module share."""
    yield from auctions(program)
