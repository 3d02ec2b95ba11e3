"""The printed form of a text, with its comments and its sections, which `wsc format` and `wsc list` leave out.

A job is printed by `wsc format`, and its comments are put back: one that stands alone in its line before the lexeme that
it stood before, another at the end of the line of the lexeme that it stood behind. An assembly is printed line by line.
What would not be the same program with the same comments isn't given.
"""

from __future__ import annotations

from typing import NamedTuple

from wavescalar.programs import call
from wavescalar.lsp.assemblies import LEXEME, MARKS
from wavescalar.lsp.documents import Document
from wavescalar.lsp.jobs import LEXEME as JOB_LEXEME
from wavescalar.lsp.jobs import parts_of

TIGHT = {".", ",", ":", ">"}  # no blank before these, but before a `.` that stands for no operation in a note
OPEN = {"<", "."}  # and none behind these
LEFT_OUT = {"(", ")", ";", "var"}  # lexemes of a job that the printed form may lack


class NoLayout(Exception):
    """The text has no printed form: why."""


def formatted(document: Document, wsc: str) -> str:
    """The text in its printed form. Raises NoLayout where it has none."""
    if document.language == "job":
        return _job(document.text, wsc)
    return _assembly(document.text)


# Jobs.

def _job(text: str, wsc: str) -> str:
    pieces, at = [], 0
    for begin, end in parts_of(text):
        pieces += [text[at:begin], _program(text[begin:end], wsc)]
        at = end
    return "".join([*pieces, text[at:]])


def _printed(program: str, wsc: str) -> str:
    status, made, _ = call(wsc, ["format"], program)
    if status:
        raise NoLayout(f"the text isn't a job yet: {made.strip()}")
    return str(made)


class Comment(NamedTuple):
    """A comment: its text, how many lexemes stand before it, and whether it stands alone in its line."""

    text: str
    before: int
    alone: bool


def _program(own: str, wsc: str) -> str:
    """One program with its comments."""
    printed = _printed(own, wsc)
    comments = _comments(own)
    if not comments:
        return printed
    result = _with_comments(own, printed, comments)
    if _printed(result, wsc) != printed or sorted(_texts(_comments(result))) != sorted(_texts(comments)):
        raise NoLayout("the comments can't be kept where they stand")
    return result


def _texts(comments: list[Comment]) -> list[str]:
    return [it.text for it in comments]


def _lexemes(text: str) -> list[tuple[str, int]]:
    """Lexemes and comments, each with its place."""
    return [(found[0], found.start()) for found in JOB_LEXEME.finditer(text) if not found[0][0].isspace()]


def _comments(text: str) -> list[Comment]:
    """The comments of a program."""
    found, count = list[Comment](), 0
    for word, begin in _lexemes(text):
        if word[0] == "#":
            found.append(Comment(word.rstrip(), count, not text[text.rfind("\n", 0, begin) + 1:begin].strip()))
        else:
            count += 1
    return found


def _paired(old: list[str], new: list[str]) -> dict[int, int]:
    """The places of a program's lexemes in its printed form, by their order.

    That form leaves out parentheses, empty arms of `else`, and the `; var` between two declarations, for which it has a
    `,`. Raises NoLayout where it has anything else of its own.
    """
    pairs, at, to = dict[int, int](), 0, 0
    while at < len(old) and to < len(new):
        if old[at:at + 3] == ["else", "{", "}"] and new[to] != "else":
            at += 3
        elif old[at] == new[to]:
            pairs[at] = to
            at, to = at + 1, to + 1
        elif old[at] in LEFT_OUT:
            at += 1
        elif new[to] == ",":
            to += 1
        else:
            raise NoLayout("the comments can't be placed in the printed form")
    return pairs


def _with_comments(own: str, printed: str, comments: list[Comment]) -> str:
    """The printed form of a program with its comments, each at the line of a lexeme that it stood beside."""
    old = [word for word, _ in _lexemes(own) if word[0] != "#"]
    new = _lexemes(printed)
    pairs = _paired([(word.lstrip("0") or "0") if word.isdigit() else word for word in old], [word for word, _ in new])
    lines = printed.split("\n")
    line_of, line, done = list[int](), 0, 0
    for _, begin in new:
        line, done = line + printed.count("\n", done, begin), begin
        line_of.append(line)
    above: dict[int, list[str]] = {}
    behind: dict[int, list[str]] = {}
    for it in comments:
        before = next((line_of[pairs[at]] for at in range(it.before - 1, -1, -1) if at in pairs), None)
        if it.alone or before is None:
            after = next((line_of[pairs[at]] for at in range(it.before, len(old)) if at in pairs), len(lines) - 1)
            above.setdefault(after, []).append(it.text)
        else:
            behind.setdefault(before, []).append(it.text)
    return _joined(lines, above, behind)


def _joined(lines: list[str], above: dict[int, list[str]], behind: dict[int, list[str]]) -> str:
    """Lines with the comments above them, indented as they are, and behind them."""
    made: list[str] = []
    for at, line in enumerate(lines):
        # a comment above a brace belongs to what it closes
        depth = len(line) - len(line.lstrip()) + 2 * (line.strip() == "}")
        made += [" " * depth + text for text in above.get(at, [])]
        made.append("  ".join([line, *behind.get(at, [])]))
    return "\n".join(made)


# Assemblies.

def _assembly(text: str) -> str:
    """Each line in the form in which the program prints it, up to the sections; comments keep their places."""
    lines, made = text.split("\n"), list[str]()
    for at, line in enumerate(lines):
        if line.removesuffix("\r") in MARKS:
            return "\n".join([*made, *lines[at:]])
        made.append(_line(line))
    return "\n".join(made)


def _line(line: str) -> str:
    own, mark, comment = line.removesuffix("\r").partition("#")
    told = _spaced([found[0] for found in LEXEME.finditer(own)])
    if not mark:
        return told
    return f"{told}  #{comment.rstrip()}" if told else f"{own}#{comment.rstrip()}"


def _spaced(words: list[str]) -> str:
    made = ""
    for at, word in enumerate(words):
        before = words[at - 1] if at else ""
        glued = not made or before in OPEN or word in TIGHT and not (word == "." and before == ",")
        made += word if glued else f" {word}"
    return made


__all__ = ["NoLayout", "formatted"]
