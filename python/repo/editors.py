"""Puts the words of the language and of the assembly into the files of editors/, from the table in wavescalar.isa.

    python/run repo.editors            writes them
    python/run repo.editors --check    says which files have other words

What else a file says, as its colours and patterns, is written by hand.
"""

from __future__ import annotations

import sys
from collections.abc import Sequence
from typing import NamedTuple

from wavescalar.isa import BRANCHING, DECLARING, DOING, EVENTS, EXITS, HEADS, KINDS, RESERVED
from wavescalar.programs import ROOT

PLACE = ROOT / "editors"
WORK = tuple(op for op, kind in KINDS.items() if not kind.memory)
MEMORY = tuple(op for op, kind in KINDS.items() if kind.memory)


class List(NamedTuple):
    """A list of words in a file: what stands before it, between two words, and behind it."""

    before: str
    between: str
    behind: str
    words: Sequence[str]


FILES: dict[str, tuple[List, ...]] = {
    "emacs/wsc.el": (
        List("(defvar wsc-job-words\n  '(\"", '" "', '")\n', RESERVED),
        List("(defvar wsc-assembly-words\n  '(\"", '" "', '")\n', (*HEADS, *EXITS)),
    ),
    "vim/syntax/wsjob.vim": (
        List("syntax keyword wsjobKeyword ", " ", "\n", DECLARING),
        List("syntax keyword wsjobStatement ", " ", "\n", DOING),
        List("syntax keyword wsjobBranch ", " ", "\n", BRANCHING),
    ),
    "vim/syntax/wsasm.vim": (
        List(r"syntax match wsasmHead /^\s*\zs\(", r"\|", r"\)\>/", HEADS),
        List(r"syntax match wsasmExit /^\s*\zs\(", r"\|", r"\)\>/", EXITS),
        List("syntax keyword wsasmWork contained ", " ", "\n", WORK),
        List("syntax keyword wsasmMemory contained ", " ", "\n", MEMORY),
        List(r"syntax match wsasmEvent /^\s*\zs\(", r"\|", r"\)\>/", EVENTS),
    ),
    "vscode/syntaxes/wsjob.tmLanguage.json": (
        List('{ "match": "\\\\b(', "|", ')\\\\b", "name": "storage.type.wsjob" }', DECLARING),
        List('{ "match": "\\\\b(', "|", ')\\\\b", "name": "keyword.control.wsjob" }', BRANCHING),
        List('{ "match": "\\\\b(', "|", ')\\\\b", "name": "keyword.other.wsjob" }', DOING),
    ),
    "vscode/syntaxes/wsasm.tmLanguage.json": (
        List('"match": "^\\\\s*(\\\\w+)\\\\s*:\\\\s*(?:(', "|", ")|(", WORK),
        List(")|(", "|", '))\\\\b",\n', MEMORY),
        List('{ "match": "^\\\\s*(', "|", ')\\\\b", "name": "storage.type.wsasm" }', HEADS),
        List('{ "match": "^\\\\s*(', "|", ')\\\\b", "name": "keyword.control.wsasm" }', (*EXITS, *EVENTS)),
    ),
}


def put(text: str, it: List) -> str:
    """The text with these words in their place: what stands last before `behind`, and begins with `before`."""
    at = text.index(it.before)
    end = text.index(it.behind, at)
    at = text.rindex(it.before, 0, end) + len(it.before)
    return text[:at] + it.between.join(it.words) + text[end:]


def main() -> int:
    wrong: list[str] = []
    for name, lists in FILES.items():
        path = PLACE / name
        made = text = path.read_text()
        for it in lists:
            made = put(made, it)
        if sys.argv[1:] != ["--check"]:
            path.write_text(made)
        elif made != text:
            wrong.append(f"editors/{name} has other words than wavescalar.isa; python/run repo.editors puts them in")
    print("\n".join([*wrong, f"{len(FILES)} files with words for editors, {len(wrong)} wrong"]))
    return 1 if wrong else 0


if __name__ == "__main__":
    sys.exit(main())
