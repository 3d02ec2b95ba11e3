"""Renaming: which edits give a thing another name, where that changes nothing else.

A new name is taken only where the changed text has the same names at the same places, each standing for the same thing as
before, and no fault of a name that it hadn't.
"""

from __future__ import annotations

import re
from collections.abc import Callable

from wavescalar.isa import RESERVED
from wavescalar.lsp.analysis import Analysis, Occurrence
from wavescalar.lsp.assemblies import AssemblyText
from wavescalar.lsp.documents import Document, Span
from wavescalar.lsp.jobs import JobText
from wavescalar.reader import is_number

NAME = re.compile(r"[A-Za-z_][A-Za-z0-9_]*")
LONGEST = 64  # characters of a name
NAMED = ("instruction", "block", "array")  # things of an assembly that may have names
Edit = tuple[Span, str]


class NoRename(Exception):
    """The name can't be changed so: why."""


def _here(document: Document, said: Analysis, offset: int) -> Occurrence | None:
    """The name at a place that can have another."""
    here = said.index.at(offset)
    if here is None or is_number(document.text[here.span[0]:here.span[1]]):
        return None
    if isinstance(said, AssemblyText) and (not isinstance(here.key, tuple) or here.key[0] not in NAMED or
                                           document.text[here.span[0]:here.span[1]] == "hidden"):
        return None
    return here


def name_at(document: Document, said: Analysis, offset: int) -> Span | None:
    """Where the name at a place stands; nothing where there is none that can be changed."""
    here = _here(document, said, offset)
    return here.span if here and said.index.definitions(offset) else None


def renamed(document: Document, said: Analysis, offset: int, name: str,
            read: Callable[[Document], Analysis]) -> list[Edit]:
    """The edits that give the thing at a place this name. read: what reads a text. Raises NoRename where it can't have it."""
    here = _here(document, said, offset)
    if here is None or not said.index.definitions(offset):
        raise NoRename("nothing with a name of its own stands here")
    if not NAME.fullmatch(name) or len(name) > LONGEST:
        raise NoRename(f"`{name[:80]}` is no name: a letter or `_`, then letters, digits and `_`, at most {LONGEST} of them")
    if isinstance(said, JobText) and name in RESERVED:
        raise NoRename(f"`{name}` is a reserved word")
    old = document.text[here.span[0]:here.span[1]]
    spans = [it.span for it in said.index.references(offset) if document.text[it.span[0]:it.span[1]] == old]
    made = document.text
    for begin, end in sorted(spans, reverse=True):
        made = made[:begin] + name + made[end:]
    again = read(Document(document.uri, document.version, document.language, made))
    if again.index.shape() != said.index.shape() or _faults(again) != _faults(said):
        raise NoRename(f"`{name}` has another meaning at one of these places")
    return [(span, name) for span in spans]


def _faults(said: Analysis) -> list[str]:
    """The rules of the faults of names."""
    return [it.rule for it in said.faults] if isinstance(said, JobText) else []
