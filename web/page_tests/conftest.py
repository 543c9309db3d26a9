"""The browser in which the page is tried: from a file, from localhost and from an insecure origin."""

from __future__ import annotations

from typing import TYPE_CHECKING, Iterator

import pytest
import tools

if TYPE_CHECKING:
    from browser import Browser


@pytest.fixture(scope="module")
def started(module: None) -> Iterator[Browser]:
    """A browser. Without one the test is skipped."""
    import browser

    if not tools.has("chromium"):
        pytest.skip("chromium is missing")
    made = browser.Browser()
    try:
        yield made
    finally:
        made.close()


@pytest.fixture
def anywhere(started: Browser) -> Browser:
    """A browser for pages of any origin."""
    started.open("about:blank")
    return started


@pytest.fixture
def browser(anywhere: Browser) -> Iterator[Browser]:
    """A browser with the page, opened from a file, without keys and lines. At the end nothing was requested, and nothing complained
    of."""
    import browser

    anywhere.open(browser.PAGE.as_uri())
    browser.wait(anywhere)
    browser.set_keys(anywhere)
    # The keys have the lines that were there read again, which this ends.
    browser.paste(anywhere, "")
    anywhere.forget()
    yield anywhere
    assert not anywhere.requests()
    assert not anywhere.complaints()
