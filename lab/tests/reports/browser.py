"""A browser without a screen, and what is read from a page in it."""
from __future__ import annotations

import json
import shutil
from typing import Any, Iterator, Protocol

import pytest

WANTED = "chromium, chromium-driver and python3-selenium"
SECONDS = 240


class Browser(Protocol):
    """What the tests ask of a browser."""

    def get(self, address: str) -> None: ...
    def execute_script(self, script: str, *words: Any) -> Any: ...
    def execute_cdp_cmd(self, command: str, words: dict[str, Any]) -> Any: ...
    def get_log(self, name: str) -> list[dict[str, Any]]: ...
    def find_element(self, how: str, what: str) -> Any: ...
    def quit(self) -> None: ...


def opened() -> Iterator[Browser]:
    """Chromium, by selenium; where one of them is not there the tests are skipped."""
    driver, browser = shutil.which("chromedriver"), shutil.which("chromium")
    try:
        from selenium import webdriver
        from selenium.webdriver.chrome.options import Options
        from selenium.webdriver.chrome.service import Service
    except ImportError:
        pytest.skip(f"the page in a browser, for want of {WANTED}")
    if not driver or not browser:
        pytest.skip(f"the page in a browser, for want of {WANTED}")
    how = Options()
    how.binary_location = browser
    for word in ("--headless=new", "--no-sandbox", "--disable-gpu", "--disable-dev-shm-usage",
                 "--window-size=1400,1400"):
        how.add_argument(word)
    how.set_capability("goog:loggingPrefs", {"browser": "ALL", "performance": "ALL"})
    it = webdriver.Chrome(service=Service(driver), options=how)
    it.set_page_load_timeout(SECONDS)
    it.set_script_timeout(SECONDS)
    yield it
    it.quit()


def asked_for(browser: Browser) -> list[str]:
    """The addresses of all requests that pages made since this was asked last, but for those of pages themselves."""
    found = []
    for it in browser.get_log("performance"):
        message = json.loads(it["message"])["message"]
        if message["method"] == "Network.requestWillBeSent" and message["params"].get("type") != "Document":
            found.append(message["params"]["request"]["url"])
    return found


class Page:
    """A page that is open. One that is open already is not opened again."""

    def __init__(self, browser: Browser, address: str) -> None:
        from selenium.webdriver.support.ui import WebDriverWait
        self.browser = browser
        if browser.execute_script("return location.href.split('#')[0]") != address:
            browser.get(address)
        WebDriverWait(browser, SECONDS).until(
            lambda it: it.execute_script("return document.documentElement.dataset.ready === 'yes'"))

    def says(self, script: str, *words: Any) -> Any:
        return self.browser.execute_script(f"return {script}", *words)

    def wait(self, script: str, *words: Any) -> None:
        """Waits until a script says so."""
        from selenium.webdriver.support.ui import WebDriverWait
        WebDriverWait(self.browser, SECONDS).until(lambda it: it.execute_script(f"return {script}", *words))

    def text(self, what: str) -> str:
        """The text of an element, with its line ends."""
        return str(self.says("document.querySelector(arguments[0])?.textContent ?? ''", what))

    def click(self, address: str) -> None:
        """Clicks where the page draws what an address names."""
        from selenium.webdriver.common.action_chains import ActionChains
        self.says("(go(''), pointOf(arguments[0]), draw())", address)
        x, y = self.says("pointOf(arguments[0])", address)
        actions = ActionChains(self.browser, duration=0)
        actions.w3c_actions.pointer_action.move_to_location(round(x), round(y))
        actions.w3c_actions.pointer_action.click()
        actions.perform()

    def press(self, *keys: str) -> None:
        """Presses keys, wherever the focus is."""
        from selenium.webdriver.common.action_chains import ActionChains
        ActionChains(self.browser, duration=0).send_keys(*keys).perform()
