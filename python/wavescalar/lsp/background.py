"""Asks for diagnostics beside the requests: a while after the last change of a text, and of its latest version alone."""

from __future__ import annotations

import threading
import time
from typing import Any, Callable

from wavescalar.lsp.documents import Document

DELAY = 0.2  # seconds without a change before a text is looked at
# What makes the diagnostics of a document, and what tells them.
Make = Callable[[Document], list[dict[str, Any]]]
Tell = Callable[[Document, list[dict[str, Any]]], None]


class Checker:
    """A thread that looks at texts. A text that has changed meanwhile is told nothing of: the latest one wins."""

    def __init__(self, make: Make, tell: Tell, delay: float = DELAY) -> None:
        self._make, self._tell, self._delay = make, tell, delay
        self._waiting: dict[str, tuple[float, Document]] = {}
        self._latest: dict[str, Document] = {}
        self._changed = threading.Condition()
        self._ended = False
        self._thread = threading.Thread(target=self._work, name="diagnostics", daemon=True)
        self._thread.start()

    def look(self, document: Document, at_once: bool = False) -> None:
        """Has a text looked at: after the delay, or as soon as may be."""
        with self._changed:
            self._latest[document.uri] = document
            self._waiting[document.uri] = (time.monotonic() + (0 if at_once else self._delay), document)
            self._changed.notify()

    def forget(self, document: Document) -> None:
        """The text is closed: its marks go, and what is under way is told to nobody."""
        with self._changed:
            self._latest.pop(document.uri, None)
            self._waiting.pop(document.uri, None)
            self._tell(document, [])

    def leave(self, uri: str) -> None:
        """The text is looked at elsewhere from now on; its marks stay."""
        with self._changed:
            self._latest.pop(uri, None)
            self._waiting.pop(uri, None)

    def end(self) -> None:
        """Ends the thread; what it is at is told to nobody."""
        with self._changed:
            self._ended = True
            self._latest.clear()
            self._waiting.clear()
            self._changed.notify()
        self._thread.join(timeout=2)

    def _next(self) -> Document | None:
        """Waits for the next text whose time has come; nothing at the end."""
        with self._changed:
            while not self._ended:
                due = min(self._waiting.values(), key=lambda it: it[0], default=None)
                left = due[0] - time.monotonic() if due else None
                if due and left is not None and left <= 0:
                    del self._waiting[due[1].uri]
                    return due[1]
                self._changed.wait(left)
        return None

    def _work(self) -> None:
        while document := self._next():
            made = self._make(document)
            with self._changed:
                if self._latest.get(document.uri) is document:
                    self._tell(document, made)
