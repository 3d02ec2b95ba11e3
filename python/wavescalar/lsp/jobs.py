"""What is said of a job: its names with their scopes, read also where the text isn't one yet.

A procedure is read up to its closing brace, or to the next `proc` or `array`, which stand in none. `faults` are those of
names, all of them: names that aren't visible or are declared twice, other kinds, other counts of arguments. The program
tells the first of them alone; whether these are shown is for `faults.py`, which asks it.
"""

from __future__ import annotations

import re
from collections.abc import Iterator
from dataclasses import dataclass
from typing import NamedTuple

from wavescalar.isa import RESERVED
from wavescalar.lsp import meanings
from wavescalar.lsp.analysis import (
    ARRAY, FUNCTION, FUNCTION_ITEM, KEYWORD_ITEM, MODULE, VARIABLE, VARIABLE_ITEM, Hover, Index, Item, Occurrence, Symbol,
    word_value,
)
from wavescalar.lsp.documents import Document, Span
from wavescalar.reader import is_number

LEXEME = re.compile(r"[ \t\r\n]+|#[^\n]*|[A-Za-z_][A-Za-z0-9_]*|[0-9]+|<<|>>|<=|>=|==|!=|.", re.DOTALL)
OUTER = ("proc", "array")
SECTION = re.compile(r"^%(input|job)\r?$", re.MULTILINE)


class Token(NamedTuple):
    """A lexeme and its place."""

    word: str
    span: Span

    @property
    def is_name(self) -> bool:
        """Whether it is a word that may be a name."""
        return (self.word[0].isalpha() or self.word[0] == "_") and self.word.isascii() and self.word not in RESERVED


@dataclass(frozen=True)
class Declaration:
    """A name: its kind, where it stands, from where to where it is visible, and of a procedure its parameters.

    kind: `array`, `procedure`, `parameter` or `variable`. detail: how it is declared.
    """

    kind: str
    name: str
    at: Span
    visible: Span
    detail: str
    whole: Span
    parameters: int = 0

    @property
    def group(self) -> str:
        """What it is where it is used: a parameter is a variable."""
        return "variable" if self.kind == "parameter" else self.kind


@dataclass(frozen=True)
class Use:
    """A name where it is used: as what kind, and of a call with how many arguments."""

    name: str
    at: Span
    wanted: str
    arguments: int = 0


@dataclass(frozen=True)
class NameFault:
    """A fault of a name, with the program's word for it."""

    at: Span
    rule: str
    told: str


@dataclass(frozen=True)
class Procedure:
    """A procedure as it is read: its name where it has one, its place, its parameters and variables."""

    declared: Declaration | None
    span: Span
    locals: list[Declaration]


class Scan:
    """One job of a text: its tokens, declarations and uses, in the order of the text."""

    def __init__(self, text: str, begin: int, end: int) -> None:
        self.text, self.end = text, end
        self.tokens = [Token(found[0], found.span()) for found in LEXEME.finditer(text, begin, end)
                       if not found[0][0].isspace() and found[0][0] != "#"]
        self.at = 0
        self.arrays: list[Declaration] = []
        self.procedures: list[Procedure] = []
        self.uses: list[Use] = []
        while self.at < len(self.tokens):
            self._declaration()

    def _next(self, ahead: int = 0) -> str:
        place = self.at + ahead
        return self.tokens[place].word if place < len(self.tokens) else ""

    def _take(self) -> Token:
        self.at += 1
        return self.tokens[self.at - 1]

    def _behind(self) -> int:
        """Where the last token ends."""
        return self.tokens[self.at - 1].span[1]

    def _names(self, *ends: str) -> Iterator[Token]:
        """The names of a list, up to one of these lexemes, or to what can't stand in it."""
        while self.at < len(self.tokens) and (self._next() == "," or self.tokens[self.at].is_name):
            token = self._take()
            if token.is_name:
                yield token
        if self._next() in ends:
            self.at += 1

    def _declaration(self) -> None:
        if self._next() == "array":
            self._array()
        elif self._next() == "proc":
            self._procedure()
        else:
            self.at += 1

    def _array(self) -> None:
        begin, named, length = self._take().span[0], None, "?"
        if self.at < len(self.tokens) and self.tokens[self.at].is_name:
            named = self._take()
        if self._next() == "[" and is_number(self._next(1)):
            length = self._next(1)
            self.at += 2
            self.at += self._next() == "]"
        self.at += self._next() == ";"
        if named:
            self.arrays.append(Declaration("array", named.word, named.span, (self._behind(), self.end),
                                           f"array {named.word}[{length}]", (begin, self._behind())))

    def _procedure(self) -> None:
        begin, named = self._take().span[0], None
        if self.at < len(self.tokens) and self.tokens[self.at].is_name:
            named = self._take()
        parameters = list[Token]()
        if self._next() == "(":
            self.at += 1
            parameters = list(self._names(")"))
        variables = self._body()
        span, owner = (begin, self._behind()), named.word if named else "a procedure"
        # a local name is visible from its declaration to the end of its procedure
        inner = [Declaration(kind, it.word, it.span, (it.span[1], span[1]), f"{kind} of {owner}", it.span)
                 for kind, tokens in (("parameter", parameters), ("variable", variables)) for it in tokens]
        declared = None
        if named:
            told = ", ".join(token.word for token in parameters)
            declared = Declaration("procedure", named.word, named.span, (span[1], self.end), f"proc {named.word}({told})",
                                   span, len(parameters))
        self.procedures.append(Procedure(declared, span, inner))

    def _body(self) -> list[Token]:
        """Reads a procedure's body; its variables."""
        depth, found = 0, list[Token]()
        while self.at < len(self.tokens) and self._next() not in OUTER:
            token = self._take()
            if token.word == "var":
                found += self._names(";")
            elif token.word == "{":
                depth += 1
            elif token.word == "}":
                depth -= 1
                if depth <= 0:
                    break
            elif token.is_name:
                self._use(token)
        return found

    def _use(self, token: Token) -> None:
        behind = self._next()
        wanted = {"(": "procedure", "[": "array"}.get(behind, "variable")
        self.uses.append(Use(token.word, token.span, wanted, self._arguments() if behind == "(" else 0))

    def _arguments(self) -> int:
        """How many arguments stand between the parentheses that begin here."""
        depth, commas, at = 0, 0, self.at
        while at < len(self.tokens) and self.tokens[at].word not in (";", "{", "}"):
            word = self.tokens[at].word
            depth += (word in "([") - (word in ")]")
            if depth == 0:
                break
            commas += word == "," and depth == 1
            at += 1
        return commas + 1 if at > self.at + 1 else 0

    def declarations(self) -> list[Declaration]:
        """All declarations, in the order of the text."""
        own = [it.declared for it in self.procedures if it.declared]
        found = [*self.arrays, *own, *(it for one in self.procedures for it in one.locals)]
        return sorted(found, key=lambda it: it.at)


class JobText:
    """What is said of a text of one job, or of several that lines `%job` part."""

    def __init__(self, document: Document) -> None:
        self.document, self.text = document, document.text
        self.scans = [Scan(self.text, begin, end) for begin, end in parts_of(self.text)]
        self.declared = [it for scan in self.scans for it in scan.declarations()]
        self.faults: list[NameFault] = []
        occurrences = [Occurrence(it.at, it, True) for it in self.declared]
        for scan in self.scans:
            names = Visible(scan.declarations())
            self.faults += names.twice()
            for use in scan.uses:
                found = names.find(use.name, use.at[0])
                if found:
                    occurrences.append(Occurrence(use.at, found))
                self.faults += names.faults_of(use, found)
        self.faults.sort(key=lambda it: it.at)
        self.index = Index(occurrences)

    def symbols(self) -> list[Symbol]:
        """Arrays and procedures, of several jobs below each job."""
        parts = []
        for scan in self.scans:
            made = [_symbol(it, ARRAY) for it in scan.arrays]
            for one in scan.procedures:
                if one.declared:
                    inner = tuple(_symbol(it, VARIABLE) for it in one.locals)
                    made.append(_symbol(one.declared, FUNCTION, inner))
            parts.append(sorted(made, key=lambda it: it.span))
        if len(parts) == 1:
            return parts[0]
        spans = parts_of(self.text, input_too=True)
        return [Symbol(f"job {at}", MODULE, span, (span[0], span[0]), "", tuple(own))
                for at, (span, own) in enumerate(zip(spans, parts), 1)]

    def _token(self, offset: int) -> Token | None:
        tokens = [it for scan in self.scans for it in scan.tokens if it.span[0] <= offset <= it.span[1]]
        return max(tokens, key=lambda it: (it.span[0] <= offset < it.span[1], it.span[0])) if tokens else None

    def hover(self, offset: int) -> Hover | None:
        """The declaration of a name, the meaning of a word or a mark, the forms of a number."""
        token = self._token(offset)
        if token is None:
            return self._of_input(offset)
        here = self.index.at(token.span[0]) if token.is_name else None
        if here and isinstance(here.key, Declaration):
            return Hover(token.span, _told(here.key))
        if is_number(token.word):
            return Hover(token.span, word_value(token.word))
        told = meanings.STATEMENTS.get(token.word) or meanings.OPERATORS.get(token.word)
        if told is None:
            return None
        return Hover(token.span, told if token.word in meanings.STATEMENTS else f"`{token.word}` {told}")

    def _of_input(self, offset: int) -> Hover | None:
        """An input word, or the line that begins the section."""
        for found in re.finditer(r"(?m)^%(?:input|job)$|[0-9]+", self.text):
            if found.start() <= offset <= found.end():
                if found[0] in meanings.STATEMENTS:
                    return Hover(found.span(), meanings.STATEMENTS[found[0]])
                sectioned = not any(begin <= offset < end for begin, end in parts_of(self.text))
                return Hover(found.span(), word_value(found[0])) if sectioned else None
        return None

    def completions(self, offset: int) -> list[Item]:
        """The names that are visible at a place, and the reserved words; nothing behind `%input` and in a comment."""
        begin = self.text.rfind("\n", 0, offset) + 1
        if "#" in self.text[begin:offset] or not any(low <= offset <= high for low, high in parts_of(self.text)):
            return []
        names = {it.name: it for it in self.declared if it.visible[0] <= offset <= it.visible[1]}
        kinds = {"array": VARIABLE_ITEM, "procedure": FUNCTION_ITEM}
        items = [Item(name, kinds.get(it.kind, VARIABLE_ITEM), it.detail) for name, it in names.items()]
        return items + [Item(word, KEYWORD_ITEM, meanings.STATEMENTS[word].partition(".")[0]) for word in RESERVED]


class Visible:
    """The declarations of one job, by name."""

    def __init__(self, declared: list[Declaration]) -> None:
        self.by_name: dict[str, list[Declaration]] = {}
        for it in declared:
            self.by_name.setdefault(it.name, []).append(it)

    def find(self, name: str, offset: int) -> Declaration | None:
        """What a name stands for at a place; the first declaration, where there are two."""
        found = [it for it in self.by_name.get(name, []) if it.visible[0] <= offset <= it.visible[1]]
        return found[0] if found else None

    def twice(self) -> list[NameFault]:
        """Names that are declared where they are visible."""
        return [NameFault(it.at, "twice", f"`{it.name}` is visible already: {other.detail}")
                for own in self.by_name.values() for at, it in enumerate(own) for other in own[:at]
                if other.visible[0] <= it.at[0] <= other.visible[1]]

    def faults_of(self, use: Use, found: Declaration | None) -> list[NameFault]:
        """What is wrong where a name is used."""
        if found is None:
            return [NameFault(use.at, "unknown", f"no {use.wanted} `{use.name}` is visible here{self._why(use)}")]
        if found.group != use.wanted:
            return [NameFault(use.at, "kind", f"`{use.name}` is used as {_a(use.wanted)}, and is {_a(found.group)}")]
        if use.wanted == "procedure" and use.arguments != found.parameters:
            return [NameFault(use.at, "count", f"`{use.name}` has {_many(found.parameters, 'parameter')}, and the call has "
                              f"{_many(use.arguments, 'argument')}")]
        return []

    def _why(self, use: Use) -> str:
        """Why a name that is declared somewhere isn't visible here."""
        others = self.by_name.get(use.name, [])
        if any(it.kind == "procedure" and it.whole[0] <= use.at[0] <= it.whole[1] for it in others):
            return ": a procedure can't call itself"
        if any(it.kind in ("procedure", "array") for it in others):
            return ": it is declared further down"
        return ": it is a variable of another procedure" if others else ""


def _many(count: int, what: str) -> str:
    return f"{count or 'no'} {what}{'' if count == 1 else 's'}"


def _a(kind: str) -> str:
    return f"an {kind}" if kind[0] in "aeiou" else f"a {kind}"


def _symbol(it: Declaration, kind: int, inner: tuple[Symbol, ...] = ()) -> Symbol:
    return Symbol(it.name, kind, it.whole, it.at, it.detail, inner)


def _told(it: Declaration) -> str:
    more = {"array": "Its cells are words and begin at 0. An index that isn't less than its length ends the run.",
            "procedure": "A call is a statement: `f(e, ..);` or `x = f(e, ..);`.",
            "variable": "It begins at 0 at each call. A word: a whole number below 2^64.",
            "parameter": "A word: a whole number below 2^64."}[it.kind]
    return f"```\n{it.detail}\n```\n{more}"


def parts_of(text: str, input_too: bool = False) -> list[Span]:
    """The programs of a text, which lines `%job` part, each without its input section, or with it."""
    found, begin, program = list[Span](), 0, True
    for mark in SECTION.finditer(text):
        if program and (mark[1] == "job" or not input_too):
            found.append((begin, mark.start()))
            program = False
        if mark[1] == "job":
            begin, program = min(mark.end() + 1, len(text)), True
    return [*found, (begin, len(text))] if program else found
