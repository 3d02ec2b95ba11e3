"""Texts that the editor has open, and places in them.

Here a place is an offset in characters of Python. The protocol counts lines from 0 and columns in units of UTF-16, the
programs count lines from 1, and columns in bytes (of jobs) or in characters (of assemblies) from 1.
"""

from __future__ import annotations

import re
from bisect import bisect_right
from dataclasses import dataclass
from functools import cached_property
from itertools import accumulate
from pathlib import PurePosixPath
from typing import Any, Literal
from urllib.parse import unquote, urlparse

from wavescalar.numbered import kind_of

Language = Literal["job", "assembly"]
Place = dict[str, int]  # of the protocol: `line` and `character`
Range = dict[str, Place]
Span = tuple[int, int]  # where a part of a text begins and ends

JOB_IDS = {"wsjob", "wsc-job", "job"}
ASSEMBLY_IDS = {"wsasm", "wsc-assembly", "wsc-asm"}
LINE_END = re.compile(r"\r\n|\n|\r")


def language_of(uri: str, named: str, text: str) -> Language:
    """The language of a text: by the editor's name of it, else by the file's ending, else by the text itself."""
    if named in JOB_IDS:
        return "job"
    if named in ASSEMBLY_IDS:
        return "assembly"
    ending = PurePosixPath(unquote(urlparse(uri).path)).suffix
    if ending in (".job", ".jobs"):
        return "job"
    if ending in (".asm", ".draft", ".trace"):
        return "assembly"
    return "job" if kind_of(text) == "job" else "assembly"


def _fed(text: str) -> list[int]:
    """Where the lines that end behind `\\n` alone begin."""
    return list(accumulate(map((1).__add__, map(len, text.split("\n")[:-1])), initial=0))


def _starts(text: str) -> list[int]:
    """Where the lines of the protocol begin."""
    return [0, *(found.end() for found in LINE_END.finditer(text))] if "\r" in text else _fed(text)


def of_units(line: str, units: int) -> int:
    """The characters of a line that stand before a column in units of UTF-16; all where it has fewer."""
    for at, char in enumerate(line):
        if units <= 0:
            return at
        units -= 2 if ord(char) > 0xFFFF else 1
    return len(line)


@dataclass(frozen=True)
class Document:
    """A text in one version. uri: the editor's name of the file; version: the editor's count of changes."""

    uri: str
    version: int
    language: Language
    text: str

    @cached_property
    def starts(self) -> list[int]:
        """Where each line of the protocol begins: lines end behind `\\n`, `\\r\\n` or `\\r`."""
        return _starts(self.text)

    @cached_property
    def own_starts(self) -> list[int]:
        """Where each line of the languages begins, which ends behind `\\n` alone."""
        if "\r" not in self.text:
            return self.starts
        return _fed(self.text)

    @property
    def is_draft(self) -> bool:
        """Whether it is named as a draft, whose notes are for `wsl` to make."""
        return self.uri.endswith(".draft")

    def _line(self, starts: list[int], number: int) -> str:
        """The line of this number, from 0, without what ends it; nothing where there is none."""
        if not 0 <= number < len(starts):
            return ""
        end = starts[number + 1] if number + 1 < len(starts) else len(self.text)
        return self.text[starts[number]:end].rstrip("\r\n")

    def line(self, number: int) -> str:
        """The line of the languages of this number, from 1."""
        return self._line(self.own_starts, number - 1)

    def line_at(self, offset: int) -> int:
        """The number, from 0, of the protocol's line with this place."""
        return bisect_right(self.starts, offset) - 1

    def offset(self, place: Place) -> int:
        """A place of the protocol as an offset; one past the end of its line or of the text is its end."""
        number = max(place["line"], 0)
        if number >= len(self.starts):
            return len(self.text)
        return self.starts[number] + of_units(self._line(self.starts, number), place["character"])

    def place(self, offset: int) -> Place:
        """An offset as a place of the protocol."""
        number = self.line_at(min(max(offset, 0), len(self.text)))
        front = self.text[self.starts[number]:offset]
        return {"line": number, "character": len(front) + sum(ord(char) > 0xFFFF for char in front)}

    def range(self, span: Span) -> Range:
        """A part of the text as the protocol has it."""
        return {"start": self.place(span[0]), "end": self.place(span[1])}

    def of_bytes(self, line: int, column: int) -> int:
        """The offset of a line and a column in bytes, both from 1, as the programs count them."""
        front = self.line(line).encode(errors="replace")[: column - 1].decode(errors="ignore")
        return self.of_characters(line, len(front) + 1)

    def of_characters(self, line: int, column: int) -> int:
        """The offset of a line and a column in characters, both from 1; the line's end where it lies behind that."""
        if line > len(self.own_starts):
            return len(self.text)
        return self.own_starts[line - 1] + min(column - 1, len(self.line(line)))

    def whole(self) -> Range:
        """All of the text."""
        return self.range((0, len(self.text)))


def document_of(item: dict[str, Any]) -> Document:
    """The document that the editor opens."""
    return Document(item["uri"], item["version"], language_of(item["uri"], item.get("languageId", ""), item["text"]),
                    item["text"])


def changed(document: Document, version: int, changes: list[dict[str, Any]]) -> Document:
    """The document after these changes, each of the whole text or of a range of the text before it."""
    for change in changes:
        text = change["text"]
        if "range" in change:
            begin, end = (document.offset(change["range"][edge]) for edge in ("start", "end"))
            document = edited(document, version, (begin, max(begin, end)), text)
        else:
            document = Document(document.uri, version, document.language, text)
    return document


def edited(document: Document, version: int, span: Span, text: str) -> Document:
    """The document with this text in the place of a part. Its lines aren't counted anew, which would take long."""
    begin, end = span
    made = Document(document.uri, version, document.language, document.text[:begin] + text + document.text[end:])
    made.__dict__["starts"] = _spliced(document.starts, made.text, span, len(text) - (end - begin))
    return made


def _spliced(starts: list[int], text: str, span: Span, grown: int) -> list[int]:
    """Where the lines of a changed text begin. starts: those of the text before; span: the part of that text which was
    replaced; grown: by so many characters. One line more on each side is read anew: a `\\r` may have met a `\\n`."""
    low = max(bisect_right(starts, span[0]) - 2, 0)
    behind = [at + grown for at in starts[bisect_right(starts, span[1]) + 1:]]
    end = behind[0] if behind else len(text)
    between = [found.end() for found in LINE_END.finditer(text, starts[low], end)]
    if behind and between[-1:] == behind[:1]:
        between.pop()
    return starts[:low + 1] + between + behind
