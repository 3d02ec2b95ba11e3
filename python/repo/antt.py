"""Reads crates.txt, and the files of specs/ and proofs/: imports, and declarations with their statements and bodies.

A declaration begins where a line has a kind (`record`, `data`, `ruleset`) or a colon behind its name. What stands deeper
than its first line belongs to it, and so do the equations behind it, up to the next declaration. What a check alone wants
to know, as what a name stands for, it makes of this.
"""

from __future__ import annotations

import functools
import re
from collections.abc import Iterable, Iterator
from dataclasses import dataclass, field
from typing import NamedTuple

from wavescalar.programs import ROOT

MODIFIERS = ("pub", "abbrev", "unfoldable", "opaque", "private")
NO_DECLARATION = ("mod ", "pub mod ", "infixl ", "infixr ", "infix ")
HEAD = re.compile(rf"((?:(?:{'|'.join(MODIFIERS)})\s+)*)(?:(record|data|ruleset|mutual|module)(?:\s+|$))?"
                  r"(\S*)(\s+:(?=\s|$))?(.*)", re.S)
COMMENT = re.compile(r"(^|\s)--(\s.*)?$")
USE = re.compile(r"\s*(?:pub )?(?:ghost )?use ([^\s;{]+?)(?: as (\S+?))?(?:\.\{([^}]*)\})?;?\s*$")


def crates(text: str | None = None) -> dict[str, list[str]]:
    """Each crate of crates.txt, in its order, with those that its line names, the toolchain's among them."""
    lines = (ROOT / "crates.txt").read_text() if text is None else text
    parted = (line.split("#")[0].partition(":") for line in lines.splitlines())
    return {crate.strip(): rest.split() for crate, _, rest in parted if crate.strip()}


def stands_on(named: dict[str, list[str]]) -> dict[str, set[str]]:
    """The crates of the repository that each one stands on, near and far."""
    @functools.cache
    def below(crate: str) -> frozenset[str]:
        own = [it for it in named[crate] if it in named]
        return frozenset(own).union(*map(below, own))

    return {crate: set(below(crate)) for crate in named}


class Use(NamedTuple):
    """An import: a file, and either the name that stands for it, or names of it by those that stand for them here."""

    path: str
    short: str
    names: dict[str, str]


def use_of(line: str) -> Use | None:
    """The import that a line is, one of several lines joined; nothing where it is none."""
    found = USE.match(line)
    if not found:
        return None
    names: dict[str, str] = {}
    for part in (found[3] or "").split(","):
        name, _, here = (it.strip() for it in part.partition(" as "))
        if name:
            names[here or name] = name
    return Use(found[1], "" if names else found[2] or found[1].rpartition(".")[2], names)


class Imports:
    """What short names of a file stand for: names of other files, and files."""

    def __init__(self) -> None:
        self.names: dict[str, tuple[str, str]] = {}  # the file that has each, and its name there
        self.files: dict[str, str] = {}

    def take(self, line: str) -> bool:
        """Takes an import, in one line; whether the line is one."""
        found = use_of(line)
        if found:
            self.names.update({here: (found.path, name) for here, name in found.names.items()})
            if found.short:
                self.files[found.short] = found.path
        return found is not None


class Head(NamedTuple):
    """How a line begins that may begin a declaration: its modifiers, its kind (`record`, `data`, `ruleset`, `mutual` and
    `module`, else nothing), its name, whether a colon stands behind that, and what follows. The last two kinds have no name."""

    modifiers: frozenset[str]
    kind: str
    name: str
    is_typed: bool
    rest: str

    @property
    def is_marked(self) -> bool:
        """Whether a modifier or a kind says that a declaration begins here."""
        return bool(self.kind or self.modifiers)


def head_of(line: str) -> Head:
    """The beginning of a line without blanks before it."""
    found = HEAD.match(line)
    assert found  # each part may be empty
    modifiers, kind, name, colon, rest = found.groups(default="")
    if kind in ("mutual", "module"):
        return Head(frozenset(modifiers.split()), kind, "", False, line[found.end(2):])
    return Head(frozenset(modifiers.split()), kind, name, bool(colon), rest)


class Line(NamedTuple):
    """A line that says something, without its comment."""

    number: int
    column: int
    text: str


def lines_of(text: str) -> Iterator[Line]:
    """The lines of a text that say something."""
    for number, line in enumerate(text.splitlines(), 1):
        line = COMMENT.sub("", line).rstrip()
        if line:
            yield Line(number, len(line) - len(line.lstrip()), line.strip())


def blocks(lines: Iterable[Line]) -> list[list[Line]]:
    """What begins at the column of the first line, each with the lines that belong to it."""
    found: list[list[Line]] = []
    for line in lines:
        if found and (line.column > found[0][0].column or line.text[0] in ")}]|"):
            found[-1].append(line)
        else:
            found.append([line])
    return found


def parted(block: list[Line]) -> tuple[list[Line], list[Line]]:
    """The lines of a module, record or data up to its `where`, and those behind it."""
    head = next((at for at, line in enumerate(block, 1) if line.text.endswith("where")), len(block))
    return block[:head], block[head:]


@dataclass
class Declaration:
    """A declaration of a file.

    head: that of its first line: modifiers, kind, name.
    around: the parameters of the modules around it.
    group: the lines of the mutual group that it stands in, with that which begins it; else nothing.
    statement: its lines without equations. Of a record or data they go up to `where`.
    members: the lines of each field of a record, and of each constructor of data.
    derives: the lines `deriving ..` behind them.
    unfolds: the lines `unfolding ..` before equations; those at the head of a mutual group are its first declaration's.
    equations: the lines of each.
    """

    head: Head
    statement: list[Line]
    members: list[list[Line]]
    around: tuple[str, ...]
    group: list[Line]
    derives: list[Line] = field(default_factory=list)
    unfolds: list[Line] = field(default_factory=list)
    equations: list[list[Line]] = field(default_factory=list)

    @property
    def name(self) -> str:
        return self.head.name

    @property
    def number(self) -> int:
        """Its first line."""
        return self.statement[0].number

    @property
    def type(self) -> str:
        """What stands behind its name, in one line, up to a `where`."""
        return " ".join([self.head.rest.strip(), *(line.text for line in self.statement[1:])]).strip()

    @property
    def body(self) -> list[Line]:
        """All lines behind the statement."""
        return [line for part in (*self.members, self.derives, self.unfolds, *self.equations) for line in part]


def member_name(member: list[Line]) -> str:
    """The name of a field or constructor."""
    return next(word for word in member[0].text.split() if word not in MODIFIERS)


class File:
    """A file of specs/ or proofs/: its imports, and its declarations in their order, those inside modules and of mutual
    groups too."""

    def __init__(self, text: str) -> None:
        self.imports = Imports()
        self.declarations: list[Declaration] = []
        self._read(lines_of(text), (), [])

    def _read(self, lines: Iterable[Line], around: tuple[str, ...], group: list[Line]) -> None:
        last: Declaration | None = None
        before: list[Line] = []
        for block in blocks(lines):
            first = block[0].text
            head = head_of(first)
            if self.imports.take(" ".join(line.text for line in block)) or first.startswith(NO_DECLARATION):
                continue
            if head.kind == "mutual":
                self._read(block[1:], around, block)
            elif head.kind == "module":
                opening, body = parted(block)
                told = " ".join(line.text for line in opening).removesuffix("where").strip().split(" ", 2)
                self._read(body, (*around, *told[2:]), group)
            elif head.kind or head.is_typed:
                last = self._declare(head, block, around, group)
                last.unfolds, before = before, []
            elif first.startswith("unfolding "):
                (last.unfolds if last else before).extend(block)
            elif last:
                last.equations.append(block)

    def _declare(self, head: Head, block: list[Line], around: tuple[str, ...], group: list[Line]) -> Declaration:
        statement, body = parted(block) if head.kind else (block, [])
        parts = blocks(body)
        derives = [line for part in parts for line in part if part[0].text.startswith("deriving ")]
        members = [part for part in parts if part[0] not in derives]
        self.declarations.append(Declaration(head, statement, members, around, group, derives))
        return self.declarations[-1]


def joined(text: str) -> Iterator[tuple[int, str]]:
    """All lines with their numbers, those of an import that goes over several in one."""
    lines = iter(enumerate(text.splitlines(), 1))
    for number, line in lines:
        while re.match(r"\s*(ghost )?use\b", line) and line.count("{") > line.count("}"):
            line += next(lines)[1].strip()
        yield number, line
