"""Code actions: changes of a text that mend a diagnostic, and the notes that the linter gives to a draft.

What `wavescalar.diagnose` says of a fault is made into changes here. Each is tried before it is offered: the fault has to
be gone afterwards, and no more may be there than before.
"""

from __future__ import annotations

import difflib
import re
from collections.abc import Iterator
from typing import Any, NamedTuple

from wavescalar import tools
from wavescalar.faults import Fault
from wavescalar.image import DRAFT, lines_of
from wavescalar.isa import KINDS
from wavescalar.lsp.assemblies import MARKS, AssemblyText
from wavescalar.lsp.documents import Document, Span, edited
from wavescalar.lsp.faults import Programs, faults_of, word_at
from wavescalar.text import reading, sections

MOST_TRIED = 8  # changes that are tried for one diagnostic
NOTE = re.compile(r"<\s*([.?]|\d+)\s*,\s*(\d+)\s*,\s*([.?]|\d+)\s*>\s*\.\s*(\d+)")
PRED, SUCC, RIPPLE = 1, 3, 4  # groups of NOTE
LIKE = 0.6  # how much a word has to be like another one, from 0 to 1


class Change(NamedTuple):
    """A change: what it does, in words, the part of the text that goes, and what stands in its place."""

    title: str
    span: Span
    text: str


def of_range(document: Document, range_: dict[str, Any], diagnostics: list[dict[str, Any]],
             programs: Programs) -> list[dict[str, Any]]:
    """The code actions of a range: for each of these diagnostics, which are in it, what mends it; and of a draft its notes."""
    made = []
    before = faults_of(document, programs) if diagnostics else []
    for diagnostic in diagnostics:
        if diagnostic.get("source") != "wsc":
            continue
        tried = 0
        for change in _changes(document, diagnostic):
            tried += 1
            if tried > MOST_TRIED:
                break
            if _mends(document, change, diagnostic, before, programs):
                made.append(_action(document, change, "quickfix", [diagnostic]))
    if document.language == "assembly" and (notes := _notes(document, programs)):
        made.append(_action(document, notes, "source", []))
    if made and made[0]["kind"] == "quickfix":
        made[0]["isPreferred"] = True
    return made


def _action(document: Document, change: Change, kind: str, diagnostics: list[dict[str, Any]]) -> dict[str, Any]:
    edit = {"range": document.range(change.span), "newText": change.text}
    return {"title": change.title, "kind": kind, "diagnostics": diagnostics, "edit": {"changes": {document.uri: [edit]}}}


def _key(diagnostic: dict[str, Any]) -> tuple[str, str]:
    return str(diagnostic.get("code")), str(diagnostic.get("message"))


def _mends(document: Document, change: Change, diagnostic: dict[str, Any], before: list[dict[str, Any]],
           programs: Programs) -> bool:
    """Whether a change takes a fault away. Of a job the program names the first fault alone: another may follow it."""
    after = faults_of(edited(document, document.version, change.span, change.text), programs)
    if len(after) < len(before):
        return True
    if document.language == "assembly" or not after:
        return not after
    first = min((it["range"]["start"]["line"], it["range"]["start"]["character"]) for it in after)
    start = diagnostic["range"]["start"]
    grown = change.text.count("\n") - document.text.count("\n", *change.span)
    return first > (start["line"] + grown, start["character"] + max(len(change.text), 1))


def _changes(document: Document, diagnostic: dict[str, Any]) -> Iterator[Change]:
    span = tuple(document.offset(diagnostic["range"][edge]) for edge in ("start", "end"))
    begin, end = span
    code, told = _key(diagnostic)
    if document.language == "job":
        yield from _of_job(document.text, (begin, end), code, told)
    else:
        yield from _of_assembly(document, (begin, end), code, told)


def _line(text: str, at: int) -> Span:
    """The line with a place, without its end."""
    end = text.find("\n", at)
    return text.rfind("\n", 0, at) + 1, len(text) if end < 0 else end


# Jobs.

def _of_job(text: str, span: Span, code: str, told: str) -> Iterator[Change]:
    begin, end = span
    word = text[begin:end]
    if code == "unknown" and (found := re.search(r"perhaps `(\w+)`\?", told)):
        yield Change(f"write `{found[1]}`", span, found[1])
    if code not in ("byte", "syntax", "unknown", "kind"):
        return
    if text.startswith("\ufeff"):
        yield Change("remove the byte order mark", (0, 1), "")
    for wrong, right in (("&&", "&"), ("||", "|"), ("//", "#")):
        for at in (begin - 1, begin):
            if at >= 0 and text[at:at + 2] == wrong:
                yield Change(f"write `{right}` for `{wrong}`", (at, at + 2), right)
    yield from _of_statement(text, span)
    if found := re.compile(r"0[xX]([0-9A-Fa-f]+)\b|0[bB]([01]+)\b").match(text, max(begin - 1, 0)):
        number = int(found[1], 16) if found[1] else int(found[2], 2)
        yield Change(f"write `{number}`", found.span(), str(number))
    low, _ = _line(text, begin)
    if found := re.compile(r"\b(?:int|let|const|def|fn|func|function|void)\b").search(text, low, end):
        after = text[found.end():].lstrip(" \t")
        right = "proc" if re.match(r"\w+\s*\(", after) else "var"
        yield Change(f"write `{right}` for `{found[0]}`", found.span(), right)
    if word and code == "syntax":
        before = len(text[:begin].rstrip())
        if before and "#" not in text[_line(text, before - 1)[0]:before]:
            yield Change("put `;` before it", (before, before), ";")


def _of_statement(text: str, span: Span) -> Iterator[Change]:
    """Statements of other languages: `x += e;` and `x++;`."""
    low, high = _line(text, span[0])
    for found in re.compile(r"(\w+(?:\[[^\]]*\])?)\s*([-+*/%&|^])=\s*([^;=]+);").finditer(text, low, high):
        if found.start() <= span[0] <= found.end():
            yield Change(f"write `{found[1]} = {found[1]} {found[2]} ..`", found.span(),
                         f"{found[1]} = {found[1]} {found[2]} ({found[3].strip()});")
    for found in re.compile(r"(\w+)\s*(\+\+|--)\s*;").finditer(text, low, high):
        if found.start() <= span[0] <= found.end():
            right = f"{found[1]} = {found[1]} {found[2][0]} 1;"
            yield Change(f"write `{right}`", found.span(), right)


# Assemblies.

def _of_assembly(document: Document, span: Span, code: str, told: str) -> Iterator[Change]:
    text, rule = document.text, code.split()[0] if code else ""
    low, high = _line(text, span[0])
    if rule == "ripple" and (found := re.search(r"; write (\d+)$", told)):
        yield from _note(text, (low, high), RIPPLE, found[1])
    if rule == "link":
        yield from _of_link(document, (low, high), told)
    if rule == "shape" and "`advance`" in told and "write `merge`" in told:
        if found := re.compile(r"\badvance\b").search(text, low, high):
            yield Change("write `merge`", found.span(), "merge")
    if found := re.search(r"; send (\w+) to (\w+\.\d)$", told):
        yield from _send(document, found[1], found[2])
    if rule == "version":
        yield Change("begin with `wavescalar 2`", (0, 0), "wavescalar 2\n")
    if rule in ("line", "name", "number"):
        yield from _of_line(document, span, (low, high))


def _note(text: str, line: Span, group: int, value: str) -> Iterator[Change]:
    """A part of a line's note that gets this value."""
    if (found := NOTE.search(text, *line)) and found[group] != value:
        part = {PRED: "predecessor", SUCC: "successor", RIPPLE: "ripple"}[group]
        yield Change(f"write {value} as its {part}", found.span(group), value)


def _of_link(document: Document, line: Span, told: str) -> Iterator[Change]:
    text = document.text
    if "is the first of its wave on a path" in told:
        yield from _note(text, line, PRED, ".")
    elif "is the last of its wave on a path" in told:
        yield from _note(text, line, SUCC, ".")
    elif found := re.search(r"`\w+` (\d+).*: the successor that .* names is .*; write (\d+), or `\?`", told):
        if other := _line_of(document, int(found[1])):
            for value in (found[2], "?"):
                yield from _note(text, other, SUCC, value)
    elif found := re.search(r": the predecessor that .* names is .*; write (\d+), or `\?`", told):
        for value in (found[1], "?"):
            yield from _note(text, line, PRED, value)


def _line_of(document: Document, number: int) -> Span | None:
    """The line of an instruction, by its number from 1."""
    rows = [row for row in AssemblyText(document).rows if row.op and not row.section]
    return rows[number - 1].span if 0 < number <= len(rows) else None


def _send(document: Document, source: str, port: str) -> Iterator[Change]:
    """A destination more in the list of an instruction, which is told by its name or number."""
    for row in AssemblyText(document).rows:
        if row.op and row.text(0) == source and "->" in (it.text for it in row.words) and row.text(2) != "steer":
            end = row.words[-1].span[1]
            yield Change(f"send {source} to {port}", (end, end), f" {port}")


def _of_line(document: Document, span: Span, line: Span) -> Iterator[Change]:
    """A line that can't be read, or names nothing: words that are like those that may stand there, and other languages."""
    text, said = document.text, AssemblyText(document)
    row = next((it for it in said.rows if it.span[0] == line[0]), None)
    if row is None:
        return
    if row.op and row.op not in KINDS:
        for word in difflib.get_close_matches(row.op, list(KINDS), 3, LIKE):
            yield Change(f"write `{word}`", row.words[2].span, word)
    labels = [name for kind, name in said.lines if kind in ("instruction", "block") and not name.isdigit()]
    begin, end = word_at(text, span[0])
    for it in [*row.words[1:], *(it for it in row.words[:1] if it.span == (begin, end))]:
        if it.text[0].isalpha() and it.text not in labels and it.text not in KINDS:
            for name in difflib.get_close_matches(it.text, labels, 1, LIKE):
                yield Change(f"write `{name}`", it.span, name)
    own = text[line[0]:line[1]]
    for mark in (";", "//"):
        if (at := own.find(mark)) >= 0:
            yield Change("begin the comment with `#`", (line[0] + at, line[0] + at + len(mark)), "#")
    if found := re.search(r"\bconst\s+-\s*(\d{1,19})\b", own):
        at = line[0] + found.start() + own[found.start():].index("-")
        yield Change("write it modulo 2^64", (at, line[0] + found.end()), str((1 << 64) - int(found[1])))
    if found := re.search(r"\b(?:load|store)\s+([A-Za-z_]\w*)", own):
        arrays = [it.text(1) if it.text(0) == "array" else "" for it in said.rows if it.text(0) in ("array", "hidden")]
        if found[1] in arrays:
            number, place = str(arrays.index(found[1]) + 1), (line[0] + found.start(1), line[0] + found.end(1))
            yield Change(f"write {number}, the number of `{found[1]}`", place, number)
    if found := re.match(r"(?:\s*#.*\n|\s*\n)*\s*wavescalar\s+(1)\b", text):
        yield Change("write `wavescalar 2`, which has names", found.span(1), "2")


# Drafts.

def _notes(document: Document, programs: Programs) -> Change | None:
    """The notes of a draft, made by the linker; lines and comments stay."""
    own = sections(document.text)[0]
    if "?" not in own:
        return None
    try:
        draft = reading(own).image
        if not any(it.note == DRAFT for it in draft.instructions):
            return None
        printed = list(lines_of(tools.link(own, wsl=programs.wsl)))
    except Fault:
        return None
    made = _laid_over(own, printed)
    return Change("give the memory operations their notes (wsl)", (0, len(own)), made) if made is not None else None


def _laid_over(own: str, printed: list[str]) -> str | None:
    """The lines of a linked image at those of its draft: blank lines and comments stay, no-ops are new lines."""
    made, at = list[str](), 0
    for line in own.split("\n"):
        words, mark, comment = line.removesuffix("\r").partition("#")
        if not words.strip() or line in MARKS:
            made.append(line)
            continue
        # the linker's no-ops stand behind all other instructions of their block
        while at < len(printed) and _is_instruction(printed[at]) and not _is_instruction(words):
            made.append(printed[at])
            at += 1
        if at == len(printed):
            return None
        made.append(printed[at] + (f"  #{comment}" if mark else ""))
        at += 1
    return "\n".join(made) if at == len(printed) else None


def _is_instruction(line: str) -> bool:
    return re.match(r"\s*\w+\s*:", line) is not None
