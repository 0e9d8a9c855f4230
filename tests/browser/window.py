"""Chromium, its windows, and what a person does in one."""
import base64
import contextlib
import pathlib
import shutil
from collections.abc import Callable, Iterator
from typing import Any

from selenium import webdriver
from selenium.common.exceptions import WebDriverException
from selenium.webdriver.chrome.service import Service
from selenium.webdriver.common.action_chains import ActionChains
from selenium.webdriver.common.by import By
from selenium.webdriver.common.keys import Keys
from selenium.webdriver.remote.webelement import WebElement
from selenium.webdriver.support.ui import Select

from tests.browser import scripts
from tests.lib.waiting import wait_for

PATIENCE = 90  # seconds: a machine with other work may take long
WORDS = ["headless=new", "no-sandbox", "disable-gpu", "disable-dev-shm-usage", "hide-scrollbars"]
WORDS += ["ignore-certificate-errors", "disable-background-timer-throttling"]
WORDS += ["disable-backgrounding-occluded-windows", "disable-renderer-backgrounding"]


class Browser:
    """One Chromium. What it downloads goes to a folder."""

    def __init__(self, downloads: pathlib.Path) -> None:
        options = webdriver.ChromeOptions()
        options.binary_location = shutil.which("chromium") or "chromium"
        for word in WORDS:
            options.add_argument("--" + word)
        options.add_experimental_option("prefs", {"download.default_directory": str(downloads)})
        options.set_capability("goog:loggingPrefs", {"browser": "ALL"})
        service = Service(shutil.which("chromedriver") or "chromedriver")
        self.driver = webdriver.Chrome(options=options, service=service)
        self.downloads = downloads
        self.home = self.driver.current_window_handle

    def window(self, wide: int = 1280, high: int = 900) -> "Window":
        """A new window, whose pages keep nothing of another one."""
        self.driver.switch_to.window(self.home)
        self.driver.switch_to.new_window("window")
        window = Window(self)
        window.size(wide, high)
        return window

    def log(self) -> list[str]:
        """What the browser has logged since the last time."""
        return [line["message"] for line in self.driver.get_log("browser")]

    def end(self) -> None:
        self.driver.quit()


class Window:
    """One window of a browser. Each call is for this window, whichever was used before."""

    def __init__(self, browser: Browser) -> None:
        self.browser = browser
        self.handle = browser.driver.current_window_handle
        self.cdp("Emulation.setFocusEmulationEnabled", enabled=True)

    @property
    def driver(self) -> webdriver.Chrome:
        """The driver, at this window."""
        driver = self.browser.driver
        if driver.current_window_handle != self.handle:
            driver.switch_to.window(self.handle)
        return driver

    def close(self) -> None:
        """Closes the window, also if its page asks before it is left."""
        with contextlib.suppress(WebDriverException):
            self.driver.get("about:blank")
        with contextlib.suppress(WebDriverException):
            self.driver.switch_to.alert.accept()
        with contextlib.suppress(WebDriverException):
            self.driver.close()
        self.browser.driver.switch_to.window(self.browser.home)

    def cdp(self, command: str, **given: Any) -> Any:
        return self.driver.execute_cdp_cmd(command, given)

    # ---- How the page is shown

    def open(self, address: str, token: str = "") -> None:
        """Opens a page, and enters with a token if there is one."""
        self.driver.get(address)
        if token:
            self.at("token").send_keys(token)
            self.find("#door button").click()

    def reload(self) -> None:
        """Reloads the page, also if it asks before it is left."""
        self.run("location.reload()")
        with contextlib.suppress(WebDriverException):
            self.driver.switch_to.alert.accept()

    def size(self, wide: int, high: int) -> None:
        shape = {"width": wide, "height": high, "deviceScaleFactor": 1, "mobile": False}
        self.cdp("Emulation.setDeviceMetricsOverride", **shape)

    def dark(self, wanted: bool) -> None:
        feature = {"name": "prefers-color-scheme", "value": "dark" if wanted else "light"}
        self.cdp("Emulation.setEmulatedMedia", features=[feature])

    def settle(self) -> None:
        """Waits until the page is drawn as it is now: it notices a resize in one frame, and draws
        in the next ones.
        """
        self.driver.execute_async_script(scripts.FRAMES)

    def picture(self, file: pathlib.Path, wide: int, high: int = 0) -> None:
        """Saves a picture of the page at a size, or else of all its height."""
        self.run("document.activeElement.blur(); window.scrollTo(0, 0)")
        self.size(wide, high or 900)
        self.settle()
        self.size(wide, high or self.run("return document.documentElement.scrollHeight"))
        self.settle()
        file.parent.mkdir(parents=True, exist_ok=True)
        file.write_bytes(base64.b64decode(self.cdp("Page.captureScreenshot")["data"]))

    # ---- What is on the page

    def run(self, script: str, *words: Any) -> Any:
        return self.driver.execute_script(script, *words)

    def find(self, selector: str) -> WebElement:
        return self.driver.find_element(By.CSS_SELECTOR, selector)

    def at(self, name: str) -> WebElement:
        return self.driver.find_element(By.ID, name)

    def text(self, name: str) -> str:
        """The text of an element, also if it is not seen."""
        return str(self.run("return document.getElementById(arguments[0]).textContent", name))

    def kind(self, name: str) -> str:
        return self.at(name).get_attribute("class") or ""

    def is_seen(self, name: str) -> bool:
        return self.at(name).is_displayed()

    def until(self, what: str, look: Callable[[], object]) -> None:
        """Waits until a condition holds. The page may be drawn again meanwhile."""

        def holds() -> object:
            with contextlib.suppress(WebDriverException, LookupError, OSError, ValueError):
                return look()
            return False

        wait_for(what, holds, PATIENCE, 0.04)

    def says(self, name: str, *words: str) -> None:
        """Waits until an element has these words, and fails with what it has instead."""
        try:
            self.until(
                f"{name} says {words}", lambda: all(each in self.text(name) for each in words)
            )
        except AssertionError as late:
            raise AssertionError(f"{late}: {name} says {self.text(name)!r}") from None

    def becomes(self, look: Callable[[], object], wanted: object) -> None:
        """Waits until a value is the wanted one, and fails with what it is instead."""
        try:
            self.until(f"{wanted!r}", lambda: look() == wanted)
        except AssertionError as late:
            raise AssertionError(f"{late}, but {look()!r}") from None

    def field(self, name: str, product: int, step: int = 0) -> WebElement:
        return self.find(f'#body [data-key="{product}.{step}"][data-field="{name}"]')

    def value(self, name: str, product: int, step: int = 0) -> str:
        return self.field(name, product, step).get_attribute("value") or ""

    def row(self, product: int, step: int = 0) -> str:
        """What the page says of a row: its error, or else its effect."""
        return self.text(f"wrong{product}.{step}")

    def sign(self, product: int, step: int = 0) -> str:
        """The sign before what is said of a row."""
        return self.run(scripts.SIGN, f"wrong{product}.{step}").strip('"').strip()

    def facts(self, name: str) -> list[list[str]]:
        """Names, values and notes of a list."""
        return self.run(scripts.FACTS, name)

    def rows(self, body: str) -> list[dict[str, str]]:
        """The cells of each row that is drawn, by the class or the label of their column."""
        return self.run(scripts.ROWS, body)

    def cells(self, body: str) -> list[list[str]]:
        """The texts of the cells of each row that is drawn."""
        return self.run(scripts.CELLS, body)

    def column(self, name: str, body: str = "body") -> list[str]:
        return [row[name] for row in self.rows(body)]

    # ---- What a person does

    def click(self, name: str) -> None:
        self.run("arguments[0].scrollIntoView({block: 'center'})", self.at(name))
        self.at(name).click()

    def menu(self, name: str) -> None:
        """Clicks on a button of the menu."""
        self.click("menuhead")
        self.click(name)

    def group(self, name: str) -> None:
        """Shows a group of rows only."""
        self.find(f'#groups [data-group="{name}"]').click()

    def view(self, name: str) -> None:
        self.find(f'#views [data-view="{name}"]').click()

    def write(self, name: str, words: str) -> None:
        """Replaces the text of a field."""
        self.at(name).clear()
        self.at(name).send_keys(words)

    def choose(self, name: str, words: str) -> None:
        Select(self.at(name)).select_by_visible_text(words)

    def press(self, *keys: str) -> None:
        ActionChains(self.driver).send_keys(*keys).perform()

    def chord(self, key: str, *keys: str) -> None:
        ActionChains(self.driver).key_down(key).send_keys(*keys).key_up(key).perform()

    def bid(self, product: int, quantity: object, price: object, step: int = 0) -> None:
        """Types a quantity and a price in place of what is in the fields."""
        for name, value in (("quantity", quantity), ("price", price)):
            erase = (Keys.CONTROL + "a", Keys.NULL, Keys.DELETE)
            self.field(name, product, step).send_keys(*erase, str(value))

    def until_open(self) -> None:
        """Waits until the page takes a submission: after a closing it first gets the timetable."""
        self.until("a submission is taken", lambda: self.send_is_on())

    def send_is_on(self) -> bool:
        return self.at("send").get_attribute("aria-disabled") == "false"

    def submit(self) -> None:
        """Submits the form as soon as the page lets one, also if there is a review first."""
        self.until_open()
        self.click("send")
        self.confirm()

    def confirm(self) -> None:
        """Says yes to the review, if there is one."""
        if self.is_seen("question"):
            self.at("yes").click()

    def send(self, *words: str) -> None:
        """Submits the form, and waits for the message."""
        self.submit()
        self.says("message", *words)

    def has_focus(self, name: str) -> None:
        """Waits until the cursor is at an element."""
        self.becomes(lambda: self.run("return document.activeElement.id"), name)

    def tab_to(self, what: str, selector: str) -> WebElement:
        """Presses Tab until the cursor is there, and returns the element."""
        for _ in range(60):
            self.press(Keys.TAB)
            assert not self.run(scripts.UNSEEN), f"the cursor is not visible on the way to {what}"
            if self.run("return document.activeElement.matches(arguments[0])", selector):
                return self.driver.switch_to.active_element
        raise AssertionError(f"no way by keys to {what}")

    # ---- What happens to the page's requests from here on

    def deaf(self) -> None:
        """The page gets no status: what it sends next is for the round that it knows."""
        self.run(scripts.DEAF)
        self.until("an earlier status has come", lambda: self.run("return window.deaf"))

    def noted(self) -> None:
        """The page notes when it asks for the status, and what it sends."""
        self.run(scripts.NOTED)

    @contextlib.contextmanager
    def held(self, answers: bool) -> Iterator[None]:
        """What the page sends waits until the end: its answer, or else itself."""
        self.run(scripts.HELD, answers)
        yield
        self.run("window.let_go()")
