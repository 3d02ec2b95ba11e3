"""Diagnostics of a text: every fault with its range, its rule and its reason.

Of a job `wsc format` names the first fault; where it is one of names, the others of names are told too, if what is found
here has the program's among them. Of an assembly the linter (`wavescalar.diagnose`) tells all, and is compared with
`wsc check`. A draft, whose notes don't count, has the verdict of `wsl` besides, a trace that of `wsc replay`.
"""

from __future__ import annotations

import re
import shutil
from collections.abc import Iterator
from typing import Any, NamedTuple

from wavescalar.diagnose import refusals
from wavescalar.diagnose.findings import faults_of as assembly_faults
from wavescalar.diagnose.lint import compare
from wavescalar.numbered import kind_of
from wavescalar.programs import call
from wavescalar.reader import Finding
from wavescalar.lsp.analysis import number_of
from wavescalar.lsp.documents import Document, Span
from wavescalar.lsp.jobs import JobText, parts_of

ERROR, WARNING = 1, 2  # severities of the protocol
WORD = re.compile(r"[A-Za-z0-9_]+|[^\s]")
REFUSED = 2  # the status of a refusal
MOST = 1000  # diagnostics of a text that are told


class Programs(NamedTuple):
    """The programs that are asked: `wsc`, and the linker, which may not be there."""

    wsc: str
    wsl: str


def faults_of(document: Document, programs: Programs) -> list[dict[str, Any]]:
    """The diagnostics of a text, at most `MOST`."""
    found = list(_of_job(document, programs.wsc) if document.language == "job" else _of_assembly(document, programs))
    if len(found) > MOST:
        more = f".. and {len(found) - MOST} faults more"
        found[MOST:] = [diagnostic(document, (0, 0), "many", more, WARNING)]
    return found


def diagnostic(document: Document, span: Span, rule: str, told: str, severity: int = ERROR) -> dict[str, Any]:
    """A diagnostic as the protocol has it."""
    return {"range": document.range(span), "severity": severity, "code": rule, "source": "wsc", "message": told}


def word_at(text: str, offset: int) -> Span:
    """The word that begins at a place, or the character; nothing at the end of a line."""
    found = WORD.match(text, offset)
    return found.span() if found else (offset, offset)


def _ask(wsc: str, words: list[str], text: str) -> str:
    """The refusal of a text, or nothing."""
    status, answer, _ = call(wsc, words, text.encode(errors="replace").decode())
    return str(answer).strip() if status == REFUSED else ""


def _reason(answer: str, text: str, command: str) -> str:
    """What a refusal means, without the lines of the text that it shows."""
    said = refusals.of_refusal(answer, text, command, [])
    return "\n".join(line for line in said if not re.match(r" *\d* \| ", line)) or answer


# Jobs.

def _of_job(document: Document, wsc: str) -> Iterator[dict[str, Any]]:
    """Each job of the text is asked about alone: places of the later ones are counted on."""
    text, names = document.text, JobText(document).faults
    for begin, end in parts_of(text, input_too=True):
        answer = _ask(wsc, ["format"], text[begin:end])
        words = list(_of_input(document, (begin, end))) if not answer or answer.endswith(" input") else []
        yield from words
        if answer and not words:
            yield from _of_refusal(document, (begin, end), answer, names)


def _of_refusal(document: Document, part: Span, answer: str, names: list[Any]) -> Iterator[dict[str, Any]]:
    begin, end = part
    own = document.text[begin:end]
    found = re.fullmatch(r"refused (\d+):(\d+) (\w+)(?: \w+)?", answer)
    if not found:
        yield diagnostic(document, (begin, begin), answer.split()[1], _reason(answer, own, "format"))
        return
    line, column, rule = int(found[1]), int(found[2]), found[3]
    offset = document.of_bytes(line + document.text.count("\n", 0, begin), column)
    here = {(it.at[0], it.rule): it for it in names if begin <= it.at[0] < end}
    same, reason = here.pop((offset, rule), None), _reason(answer, own, "format")
    if same:
        # what is found here says more of the name; the program's reason may have a hint
        reason = "\n".join([same.told, *(line for line in reason.split("\n") if line.startswith("hint:"))])
    yield diagnostic(document, word_at(document.text, offset), rule, reason)
    if same or rule == "main":
        yield from (diagnostic(document, it.at, it.rule, it.told) for it in here.values())


def _of_input(document: Document, part: Span) -> Iterator[dict[str, Any]]:
    """Input words that are none."""
    begin, end = part
    mark = re.compile(r"^%input\r?$", re.MULTILINE).search(document.text, begin, end)
    for found in re.compile(r"[^\s]+").finditer(document.text, mark.end() if mark else end, end):
        if not (found[0].isascii() and found[0].isdigit() and number_of(found[0]) is not None):
            yield diagnostic(document, found.span(), "input", "an input word is a run of digits below 2^64")


# Assemblies.

def _of_assembly(document: Document, programs: Programs) -> Iterator[dict[str, Any]]:
    text, draft, wsc = document.text, document.is_draft, programs.wsc
    if kind_of(text) == "job":
        yield diagnostic(document, word_at(text, len(text) - len(text.lstrip())), "version",
                         "the first line has to be `wavescalar 1` or `wavescalar 2`")
        return
    if kind_of(text) == "trace":
        yield from _of_trace(document, wsc)
        return
    found = assembly_faults(text, draft)
    if not draft:
        found += compare(found, call(wsc, ["check"], text.encode(errors="replace").decode()))
    yield from (_of_finding(document, it) for it in found)
    if draft and (answer := verdict(programs.wsl, text)) and answer not in {it.check for it in found}:
        yield _of_answer(document, answer, "link", found)


def _of_finding(document: Document, it: Finding) -> dict[str, Any]:
    offset = document.of_characters(it.line, it.column)
    return diagnostic(document, word_at(document.text, offset), it.rule, it.message + (f"; {it.mend}" if it.mend else ""),
                      WARNING if it.rule == "check" else ERROR)


def verdict(wsl: str, text: str) -> str:
    """The linker's refusal of a draft; nothing where it takes it, or where there is no linker."""
    own = re.split(r"^%(?:input|trace)\r?$", text, maxsplit=1, flags=re.MULTILINE)[0]
    return _ask(wsl, [], own) if shutil.which(wsl) else ""


def _of_answer(document: Document, answer: str, command: str, found: list[Finding]) -> dict[str, Any]:
    """A refusal of a program that nothing here has found: at its line. Beside other faults it is a warning, as it is
    about the first fault alone."""
    line, column = refusals.places_of(answer, document.text)[0]
    offset = document.of_characters(line, column)
    reason = _reason(answer, document.text, command)
    return diagnostic(document, word_at(document.text, offset), answer.split()[1] if not answer.split()[1].isdigit()
                      else answer.split()[2], f"wsl: {answer}: {reason}", WARNING if found else ERROR)


def _of_trace(document: Document, wsc: str) -> Iterator[dict[str, Any]]:
    """Faults of the assembly and the input of a trace; where there are none, that of its events."""
    text = document.text
    at = re.search(r"^%trace\r?$", text, re.MULTILINE)
    found = assembly_faults(text[: at.start()] if at else text)
    yield from (_of_finding(document, it) for it in found)
    answer = "" if found else _ask(wsc, ["replay"], text)
    if line := re.fullmatch(r"refused (\d+) (\w+)", answer):
        begin = document.of_characters(int(line[1]), 1)
        yield diagnostic(document, (begin, begin + len(document.line(int(line[1])))), line[2],
                         _reason(answer, text, "replay"))
    elif answer:
        yield diagnostic(document, (0, 0), answer.split()[1], _reason(answer, text, "replay"))
