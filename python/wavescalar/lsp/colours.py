"""Semantic colours: the parts of a text, each with what it stands for, as the protocol counts them."""

from __future__ import annotations

from bisect import bisect_right
from collections.abc import Iterable, Iterator

from wavescalar.isa import EXITS, HEADS, KINDS, RESERVED
from wavescalar.lsp.analysis import Analysis
from wavescalar.lsp.assemblies import AssemblyText, Row
from wavescalar.lsp.documents import Document, Span
from wavescalar.lsp.jobs import LEXEME, SECTION, Declaration, JobText, parts_of as programs_of
from wavescalar.reader import is_name, is_number

TYPES = ("keyword", "function", "parameter", "variable", "property", "namespace", "number", "operator", "comment", "macro",
         "decorator")
MODIFIERS = ("declaration",)
# A part of a text, its type, and whether it is a declaration.
Part = tuple[Span, str, bool]
JOB_TYPES = {"array": "property", "procedure": "function", "parameter": "parameter", "variable": "variable"}


def encoded(document: Document, said: Analysis, span: Span) -> list[int]:
    """The parts of a text that begin in a span of it, five numbers each."""
    return encode(document, parts_of(said, span))


def parts_of(said: Analysis, span: Span) -> Iterator[Part]:
    """The parts that begin in a span, in their order."""
    if isinstance(said, JobText):
        yield from _of_job(said, span)
    elif isinstance(said, AssemblyText):
        first = max(bisect_right(said.starts, span[0]) - 1, 0)
        for row in said.rows[first:bisect_right(said.starts, span[1])]:
            yield from _of_row(said.text, row)


def encode(document: Document, parts: Iterable[Part]) -> list[int]:
    """Parts as the protocol has them: lines and columns counted on from the part before."""
    made, line, column = list[int](), 0, 0
    for (begin, end), kind, declares in parts:
        place = document.place(begin)
        width = document.place(end)["character"] - place["character"]
        ahead = place["line"] - line
        if width <= 0 or ahead < 0:
            continue  # a part that ends in another line: none of these languages has one
        made += [ahead, place["character"] - (0 if ahead else column), width, TYPES.index(kind), int(declares)]
        line, column = place["line"], place["character"]
    return made


def _of_job(said: JobText, span: Span) -> Iterator[Part]:
    text, done = said.text, 0
    for begin, end in programs_of(text):
        yield from _of_rest(text, done, begin, span)
        done = end
        low = max(begin, text.rfind("\n", 0, span[0]) + 1)
        for found in LEXEME.finditer(text, low, end):
            if found.start() >= span[1]:
                return
            if kind := _of_lexeme(said, found[0], found.start()):
                yield (found.start(), found.start() + len(found[0].rstrip("\r"))), *kind
    yield from _of_rest(text, done, len(text), span)


def _of_lexeme(said: JobText, word: str, at: int) -> tuple[str, bool] | None:
    if word.isspace():
        return None
    if word[0] == "#":
        return "comment", False
    if word in RESERVED:
        return "keyword", False
    if is_number(word):
        return "number", False
    if is_name(word):
        here = said.index.at(at)
        if here and here.span[0] == at and isinstance(here.key, Declaration):
            return JOB_TYPES[here.key.kind], here.defines
        return None
    return ("operator", False) if word not in "(){}[];," else None


def _of_rest(text: str, begin: int, end: int, span: Span) -> Iterator[Part]:
    """What stands between the programs: the marks of sections."""
    for found in SECTION.finditer(text, max(begin, span[0]), min(end, span[1])):
        yield (found.start(), found.start() + 1 + len(found[1])), "macro", False


def _of_row(text: str, row: Row) -> Iterator[Part]:
    """The words of a line: what each stands for depends on nothing but the line. A note is one part."""
    texts, note = [it.text for it in row.words], range(0)
    if "<" in texts and ">" in texts:
        note = range(texts.index("<"), min(texts.index(">") + 3, len(texts)))
    for at, word in enumerate(row.words):
        if at in note:
            if at == note.start:
                yield (word.span[0], row.words[note.stop - 1].span[1]), "decorator", False
        elif kind := _of_word(row, at):
            yield word.span, *kind
    mark = text.find("#", row.words[-1].span[1] if row.words else row.span[0], row.span[1])
    if mark >= 0:
        yield (mark, row.span[1]), "comment", False


def _of_word(row: Row, at: int) -> tuple[str, bool] | None:
    word = row.text(at)
    if word[0] == "%":
        return "macro", False
    if at == 0 and not row.op:
        return ("keyword", False) if word in (*HEADS, *EXITS) or row.section else None
    if at == 2 and row.op:
        return ("function", False) if word in KINDS else None
    if is_number(word) and at:
        return "number", False
    if word in ("->", "|"):
        return "operator", False
    return _of_name(row, at) if is_name(word) or is_number(word) else None


def _of_name(row: Row, at: int) -> tuple[str, bool]:
    """A name of a line: that of an instruction, a block or an array."""
    head = row.text(0)
    if row.op:
        return "variable", at == 0
    if head in ("block", "array") and at == 1:
        return ("namespace" if head == "block" else "property"), True
    if head in EXITS and not (head in ("if", "send") and at == 1):
        return "namespace", False
    return "variable", False
