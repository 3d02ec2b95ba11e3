"""A page in a browser, and what is asked of it."""

from __future__ import annotations

from typing import Any

from tests import asked
from tests.browser import Browser


class Trial:
    """A page in a browser. What an expression of the page gives is compared with what is wanted."""

    def __init__(self, browser: Browser) -> None:
        self.browser = browser

    def want(self, what: str, told: str, wanted: Any) -> None:
        """Fails where an expression gives something else."""
        asked.want(what, self.browser.value(told), wanted)

    def at(self, what: str, wanted: int) -> None:
        """The same of the event at which the page stands."""
        self.want(what, "at", wanted)

    def end(self) -> None:
        """Fails where the pages have complained."""
        asked.want("what the pages complain of", self.browser.complaints, [])
