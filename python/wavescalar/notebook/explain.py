"""Why a text is refused: its faulty places, each with its line and a caret, and how it is mended.

The words are those of `wavescalar.diagnose`: the linter tells all faults of an assembly, the explanations the one that
`wsc` names.
"""

from __future__ import annotations

from dataclasses import dataclass
from html import escape
from typing import Any

from wavescalar.diagnose import refusals
from wavescalar.diagnose.findings import faults_of
from wavescalar.faults import Refused
from wavescalar.numbered import kind_of

MOST = 8  # faults of an assembly that are told


@dataclass(frozen=True)
class Explanation:
    """A refusal in words.

    answer: the line of the program, `refused 3:5 unknown`.
    lines: what is shown: numbered lines of the text, carets below them, and sentences.
    places: lines and columns from 1, columns in bytes; none where the refusal is about no place.
    """

    answer: str
    lines: tuple[str, ...]
    places: tuple[tuple[int, int], ...] = ()

    def __str__(self) -> str:
        return "\n".join((self.answer, *self.lines))

    def _repr_pretty_(self, printer: Any, cycle: bool) -> None:
        printer.text(str(self))

    def _repr_html_(self) -> str:
        told = "\n".join(_html_of(line) for line in self.lines)
        return ('<pre style="border-left: 4px solid #a33030; padding: 4px 10px; line-height: 1.4; text-align: left; '
                'white-space: pre-wrap; word-break: normal">'
                f'<b style="color: #a33030">{escape(self.answer)}</b>\n{told}</pre>')


def _html_of(line: str) -> str:
    """A line as HTML: a caret stands out, and so does a sentence."""
    number, bar, rest = line.partition(" | ")
    if bar and not number.strip():
        return f'{escape(number)} | <b style="color: #a33030">{escape(rest)}</b>'
    return escape(line) if bar and number.strip().isdigit() else f"<i>{escape(line)}</i>"


def is_draft(text: str) -> bool:
    """Whether an assembly has an operation with the note of a draft, `<?, 0, ?>.0`, for `wsl` to replace."""
    return any("<?,0,?>.0" in "".join(line.split("#")[0].split()) for line in text.split("\n") if "?" in line)


def of_answer(answer: str, text: str, command: str) -> Explanation:
    """What a line `refused ..` about this text means. command: the word of `wsc` that answered it, or `link`."""
    said = refusals.of_refusal(answer, text, "check" if command == "link" else command, [])
    if kind_of(text) != "job" and not said[:1] == ["this text is a job"]:
        if found := _of_faults(answer, text, command == "link"):
            return found
    places = tuple((line, column) for line, column in refusals.places_of(answer, text)) if said else ()
    return Explanation(answer, tuple(said), places)


def _of_faults(answer: str, text: str, draft: bool) -> Explanation | None:
    """All faults of an assembly, where the linter has the one that is answered."""
    found = faults_of(text, draft)
    if not any(fault.check == answer for fault in found):
        return None
    lines, told, places = text.split("\n"), list[str](), list[tuple[int, int]]()
    for fault in found[:MOST]:
        line = lines[fault.line - 1] if fault.line <= len(lines) else ""
        place = fault.line, len(line[: fault.column - 1].encode(errors="surrogateescape")) + 1
        if place not in places[-1:]:  # several faults of one place have one caret
            told += refusals.shown(lines, *place)
        told.append(f"{fault.rule}: {fault.message}" + (f"; {fault.mend}" if fault.mend else ""))
        places.append(place)
    if len(found) > MOST:
        told.append(f".. and {len(found) - MOST} more faults")
    return Explanation(answer, tuple(told), tuple(places))


def explain(refused: Refused, text: str, command: str = "check") -> Explanation:
    """What this refusal of a text means: the same as an object that a page shows."""
    return of_answer(refused.answer, text, command)
