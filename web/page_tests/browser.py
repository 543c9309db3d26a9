"""A headless browser with the page in it, and what its tests do there."""

from __future__ import annotations

import base64
import json
import re
import time
from pathlib import Path
from typing import Any, Optional

import pytest
import tools

pytest.importorskip("selenium")

from selenium.webdriver import Chrome, ChromeOptions
from selenium.webdriver.chrome.service import Service

HERE = Path(__file__).resolve().parent
WEB = HERE.parent
TOP = WEB.parent
PAGE = WEB / "out/index.html"

# A host that no name server knows: the browser takes it for this machine, and its pages for no secure context.
HOST = "page.invalid"

FLAGS = ["--headless", "--no-sandbox", "--disable-gpu", f"--host-resolver-rules=MAP {HOST} 127.0.0.1"]


class Browser:
    """A headless browser with one page."""

    def __init__(self) -> None:
        options: Any = ChromeOptions()
        options.binary_location = tools.path_of(tools.CHROMIUM)
        for flag in FLAGS:
            options.add_argument(flag)
        options.set_capability("goog:loggingPrefs", {"browser": "ALL", "performance": "ALL"})
        self.driver: Any = Chrome(service=Service(tools.path_of("chromedriver")), options=options)
        self.driver.set_script_timeout(120)

    def call(self, method: str, **parameters: Any) -> Any:
        """What a method of the Chrome DevTools Protocol returns."""
        return self.driver.execute_cdp_cmd(method, parameters)

    def value(self, expression: str) -> Any:
        """What an expression gives in the page; a promise is waited for."""
        result = self.call("Runtime.evaluate", expression=expression, awaitPromise=True, returnByValue=True)
        if "exceptionDetails" in result:
            raise RuntimeError(json.dumps(result["exceptionDetails"])[:600])
        return result["result"].get("value")

    def open(self, url: str) -> None:
        self.driver.get(url)

    def until(self, expression: str, seconds: float = 60) -> float:
        """The time until an expression is true."""
        start = time.monotonic()
        while not self.value(expression):
            if time.monotonic() - start > seconds:
                raise TimeoutError(expression)
            time.sleep(0.02)
        return time.monotonic() - start

    def wide(self, width: int, height: int) -> None:
        self.call("Emulation.setDeviceMetricsOverride", width=width, height=height, deviceScaleFactor=1, mobile=width < 600)

    def picture(self, **more: Any) -> bytes:
        """A picture of the page, as PNG."""
        return base64.b64decode(self.call("Page.captureScreenshot", format="png", captureBeyondViewport=True, **more)["data"])

    def forget(self) -> None:
        """Drops what has been requested and complained of so far."""
        self.requests()
        self.complaints()

    def complaints(self) -> list[str]:
        """What is in the console: exceptions, warnings, and what the page has written there."""
        return [it["message"] for it in self.driver.get_log("browser")]

    def requests(self) -> list[str]:
        """The URLs that were requested, but for the page's own."""
        events = [json.loads(it["message"])["message"] for it in self.driver.get_log("performance")]
        urls = [it["params"]["request"]["url"] for it in events if it["method"] == "Network.requestWillBeSent"]
        return [it for it in urls if it != PAGE.as_uri()]

    def close(self) -> None:
        self.driver.quit()


DONE = "document.getElementById('summary')?.dataset.done"
FRESH = "delete document.getElementById('summary').dataset.done;"


def wait(browser: Browser) -> float:
    """The seconds until what was given is checked and shown."""
    return browser.until(f"{DONE} !== undefined")


def paste(browser: Browser, text: str) -> float:
    """Puts a text into the field, and returns the seconds until all of it is checked."""
    browser.value(
        f"{FRESH} (it => {{ it.value = {json.dumps(text)}; it.dispatchEvent(new Event('input')); }})(document.getElementById('lines')); 1"
    )
    return wait(browser)


def press(browser: Browser, button: str) -> None:
    """Presses a button, and waits for the results."""
    browser.value(f"{FRESH} document.getElementById('{button}').click(); 1")
    wait(browser)


def texts(browser: Browser, selector: str) -> list[str]:
    """The texts of elements."""
    found: list[str] = browser.value(f"[...document.querySelectorAll({json.dumps(selector)})].map(it => it.textContent)")
    return found


def standings(browser: Browser) -> list[str]:
    """What is stated about each lookup, without its epoch and those that follow."""
    return [re.split("; (?:later epochs|this is of epoch) ", it)[0] for it in texts(browser, ".standing")]


def count(browser: Browser, selector: str) -> int:
    found: int = browser.value(f"document.querySelectorAll({json.dumps(selector)}).length")
    return found


def set_keys(browser: Browser, kind: str = "none", signing: str = "", vrf: str = "", key: str = "") -> None:
    """Chooses a kind of keys and fills the fields, as a user does, for the lines that are pasted next."""
    fields = json.dumps({"signing": signing, "vrf": vrf, "key": key})
    browser.value(
        f"""document.querySelector('input[value={kind}]').checked = true;
        for (const [field, text] of Object.entries({fields})) document.getElementById(field).value = text;
        document.getElementById('key').dispatchEvent(new Event('input')); 1"""
    )


def note(browser: Browser, field: str) -> list[str]:
    """The note beside the field of a key, and whether the field is marked as invalid."""
    found: list[str] = browser.value(
        f"(it => [document.getElementById(it.getAttribute('aria-describedby')).textContent, it.ariaInvalid])(document.getElementById('{field}'))"
    )
    return found


def place(browser: Browser, selector: str) -> Optional[dict[str, float]]:
    """Where the first such element is in the page."""
    found: Optional[dict[str, float]] = browser.value(
        f"""(it => {{ if (!it) return null; const at = it.getBoundingClientRect();
        return {{ x: at.x + scrollX, y: at.y + scrollY, width: at.width, height: at.height }}; }})(document.querySelector({json.dumps(selector)}))"""
    )
    return found
