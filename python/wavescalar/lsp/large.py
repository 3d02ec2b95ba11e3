"""A large text as its lines: a change takes time for the lines that it names, whatever the text has besides."""

from __future__ import annotations

import re
import threading
from typing import Any

from wavescalar.lsp.documents import Document, Language, Place, of_units

LINE = re.compile(r"[^\r\n]*(?:\r\n|\n|\r)")
# What `str.splitlines` takes for the end of a line, and the protocol doesn't.
OTHER_ENDS = "\x0b\x0c\x1c\x1d\x1e"


def lines_of(text: str) -> list[str]:
    """The lines of the protocol, each with what ends it; the last one has no end, and may have nothing."""
    if text.isascii() and not any(end in text for end in OTHER_ENDS):
        made = text.splitlines(keepends=True)
    else:
        made = LINE.findall(text)
        made += [rest] if (rest := text[sum(map(len, made)):]) else []
    return made if made and made[-1][-1] not in "\r\n" else [*made, ""]


class LargeText:
    """A text that the editor has open, which changes; several threads may ask for parts of it.

    uri: the editor's name of the file; version: the editor's count. It is cut into lines once one of them is asked for.
    """

    def __init__(self, document: Document) -> None:
        self.uri, self.version = document.uri, document.version
        self.language: Language = document.language
        self._lock = threading.Lock()
        self._whole: str | None = document.text
        self._cut: list[str] = []

    @property
    def _lines(self) -> list[str]:
        if self._whole is not None:
            self._cut, self._whole = lines_of(self._whole), None
        return self._cut

    def __len__(self) -> int:
        """How many lines it has."""
        with self._lock:
            return len(self._lines)

    @property
    def text(self) -> str:
        """All of it, which takes long."""
        with self._lock:
            return "".join(self._lines)

    def part(self, first: int, last: int) -> tuple[Document, int]:
        """Lines from one to another, as a text of its own, and the number of the first, all from 0."""
        with self._lock:
            first = min(max(first, 0), len(self._lines) - 1)
            last = min(max(last, first), len(self._lines) - 1)
            return Document(self.uri, self.version, self.language, "".join(self._lines[first:last + 1])), first

    def change(self, version: int, changes: list[dict[str, Any]]) -> None:
        """Makes these changes, each of the whole text or of a range of the text before it."""
        with self._lock:
            for change in changes:
                if "range" in change:
                    self._put(self._place(change["range"]["start"]), self._place(change["range"]["end"]), change["text"])
                else:
                    self._whole = change["text"]
            self.version = version

    def _place(self, place: Place) -> tuple[int, int]:
        """A place of the protocol as a line and a count of characters; one past the end of either is its end."""
        number = max(place["line"], 0)
        if number >= len(self._lines):
            return len(self._lines) - 1, len(self._lines[-1])
        return number, of_units(self._lines[number].rstrip("\r\n"), place["character"])

    def _put(self, begin: tuple[int, int], end: tuple[int, int], text: str) -> None:
        end = max(begin, end)
        first, behind = begin[0], end[0] + 1
        made = self._lines[first][:begin[1]] + text + self._lines[end[0]][end[1]:]
        if first and made.startswith("\n") and self._lines[first - 1].endswith("\r"):
            first -= 1
            made = self._lines[first] + made
        lines = lines_of(made)
        if behind < len(self._lines):
            lines.pop()  # nothing stands behind the end of a line that isn't the last one
        self._lines[first:behind] = lines
