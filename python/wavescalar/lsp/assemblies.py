"""What is said of an assembly, a draft or a trace: labels, blocks, waves, arrays and pads, and where they are named.

Each line is read by its lexemes alone, so that names are found in lines that `wsc check` refuses too.
"""

from __future__ import annotations

import re
from bisect import bisect_right
from dataclasses import dataclass, field
from typing import NamedTuple, cast

from wavescalar.isa import EXITS, HEADS, KINDS
from wavescalar.lsp import meanings
from wavescalar.lsp.analysis import (
    ARRAY, FUNCTION_ITEM, KEYWORD_ITEM, MODULE, NAMESPACE, OPERATOR, OPERATOR_ITEM, REFERENCE_ITEM, Hover, Index, Item,
    Occurrence, Symbol, word_value,
)
from wavescalar.lsp.documents import Document, Span
from wavescalar.reader import is_number

LEXEME = re.compile(r"%\w+|[A-Za-z_][A-Za-z0-9_]*|[0-9]+|->|[^ \t]")
MARKS = ("%input", "%trace")
# What a label stands for: a kind, and a name or a number as it is written.
Key = tuple[str, str]


class Word(NamedTuple):
    """A lexeme of a line, and its place in the text."""

    text: str
    span: Span


class Mention(NamedTuple):
    """A label where it stands, as it is written: a name or a number."""

    span: Span
    key: Key
    defines: bool


@dataclass
class Part:
    """An item of the text: a wave, a block or an instruction, with its name, its places and what stands in it."""

    kind: str
    name: str
    span: Span
    at: Span
    detail: str = ""
    is_memory: bool = False
    inner: list[Part] = field(default_factory=list)

    def symbol(self) -> Symbol:
        """The item as the editor has it."""
        kinds = {"wave": MODULE, "block": NAMESPACE, "instruction": OPERATOR, "array": ARRAY}
        end = max([self.span[1], *(it.span[1] for it in self.inner)])
        name = self.name if self.kind == "instruction" else f"{self.kind} {self.name}"
        return Symbol(name, kinds[self.kind], (self.span[0], end), self.at, self.detail,
                      tuple(it.symbol() for it in self.inner))


class Row(NamedTuple):
    """A line: its words, its section (0 the assembly, 1 the input, 2 the trace), its place."""

    words: tuple[Word, ...]
    section: int
    span: Span

    def text(self, at: int) -> str:
        """The word at a place of the line; nothing where there is none."""
        return self.words[at].text if at < len(self.words) else ""

    @property
    def op(self) -> str:
        """The mnemonic of an instruction, also of one that isn't known; nothing of other lines."""
        return self.text(2) if self.text(1) == ":" else ""


class AssemblyText:
    """What is said of a text."""

    def __init__(self, document: Document) -> None:
        self.document, self.text = document, document.text
        self.rows = rows_of(document)
        self.starts = [row.span[0] for row in self.rows]
        self.found: list[Mention] = []
        self.parts: list[Part] = []
        self.lines: dict[Key, Row] = {}
        self.arrays = 0
        self._waves, self._blocks = list[Part](), list[Part]()
        self._labels: dict[str, list[str]] = {"instruction": [], "block": []}  # in the order of their lines
        for row in self.rows:
            if row.words and row.section == 0:
                self._row(row)
            elif row.section == 2 and row.words:
                self._event(row)
        self.index = Index(Occurrence(it.span, self._by_name(it.key), it.defines) for it in self.found)

    # Reading.

    def _by_name(self, key: Key) -> Key:
        """A label by number as the name that stands at its line, so that both are one thing."""
        kind, text = key
        names = self._labels.get(kind, [])
        at = int(text) - 1 if is_number(text) and len(text) < 9 else -1
        return (kind, names[at]) if 0 <= at < len(names) else key

    def _mark(self, word: Word, kind: str, defines: bool = False) -> None:
        self.found.append(Mention(word.span, (kind, word.text), defines))
        if defines and kind in self._labels:
            self._labels[kind].append(word.text)

    def _row(self, row: Row) -> None:
        head = row.text(0)
        if row.text(1) == ":":
            self._instruction(row)
        elif head in ("array", "hidden"):
            self._array(row)
        elif head in ("wave", "block") and len(row.words) > 1:
            self._begin(row, head)
        elif head == "pad" and len(row.words) > 1:
            self._mark(row.words[1], "pad", True)
            self._destinations(row, 2)
        elif head in EXITS:
            self._exit(row)

    def _array(self, row: Row) -> None:
        self.arrays += 1
        named = row.words[1] if row.text(0) == "array" and len(row.words) > 1 else row.words[0]
        self.found.append(Mention(named.span, ("array", str(self.arrays)), True))
        self.lines["array", str(self.arrays)] = row
        told = self.text[row.span[0]:row.span[1]].strip()
        self.parts.append(Part("array", named.text, row.span, named.span, f"array {self.arrays}: {told}"))

    def _begin(self, row: Row, kind: str) -> None:
        word = row.words[1]
        self._mark(word, kind, True)
        self.lines.setdefault((kind, word.text), row)
        made = Part(kind, word.text, row.span, word.span)
        if kind == "wave":
            self._waves.append(made)
            self.parts.append(made)
            return
        self._blocks.append(made)
        (self._waves[-1].inner if self._waves else self.parts).append(made)

    def _instruction(self, row: Row) -> None:
        label = row.words[0]
        self._mark(label, "instruction", True)
        self.lines.setdefault(("instruction", label.text), row)
        made = Part("instruction", label.text, row.span, label.span, " ".join(it.text for it in row.words[2:4] if
                                                                            it.text not in ("->", "<")),
                    row.op in KINDS and KINDS[row.op].memory)
        (self._blocks[-1].inner if self._blocks else self.parts).append(made)
        op = row.op
        if op in KINDS and KINDS[op].argument in ("array", "pad") and len(row.words) > 3:
            self._mark(row.words[3], str(KINDS[op].argument))
        arrow = next((at for at, it in enumerate(row.words) if it.text == "->"), len(row.words))
        self._destinations(row, arrow + 1)

    def _destinations(self, row: Row, begin: int) -> None:
        """Labels before a dot, from this word of the line on."""
        for at in range(begin, len(row.words) - 1):
            if row.text(at + 1) == "." and (row.words[at].text[0].isalnum() or row.text(at)[0] == "_"):
                self._mark(row.words[at], "instruction")

    def _exit(self, row: Row) -> None:
        named = row.words[1:]
        if row.text(0) in ("if", "send") and named:
            self._mark(named[0], "instruction")
            named = named[1:]
        for word in named:
            self._mark(word, "block")
        if self._blocks:
            self._blocks[-1].span = (self._blocks[-1].span[0], row.span[1])

    def _event(self, row: Row) -> None:
        if row.text(0) in ("match", "issue") and len(row.words) > 2:
            self._mark(row.words[2], "instruction")

    # What is told.

    def symbols(self) -> list[Symbol]:
        """Arrays, and waves with their blocks and instructions."""
        return [it.symbol() for it in self.parts]

    def _row_at(self, offset: int) -> Row | None:
        """The line with this place, its end included."""
        row = self.rows[bisect_right(self.starts, offset) - 1]
        return row if row.span[0] <= offset <= row.span[1] else None

    def hover(self, offset: int, is_part: bool = False) -> Hover | None:
        """What is told of the word at a place: the meaning of a mnemonic or a line's word, the line of a label, the parts of
        a note, the forms of a number; and in which wave and block it stands. is_part: the text is a part of another, so
        that this isn't known."""
        row = self._row_at(offset)
        found = self._of_word(row, offset)
        where = "" if is_part or row is None or row.section else self._where(row)
        if not where or row is None:
            return found
        if found is None:
            own = next((it for it in row.words if it.span[0] <= offset <= it.span[1]), None)
            return Hover(own.span, where) if own else None
        return Hover(found.span, f"{found.told}\n\n{where}")

    def _where(self, row: Row) -> str:
        """The wave and the block of a line, the place of its instruction, and of a memory operation its place in the wave."""
        wave, block = (self._last(parts, row.span[0]) for parts in (self._waves, self._blocks))
        if wave is None or row.text(0) == "end":
            return ""
        told = [f"wave {wave.name}"]
        if block is None or block.span[0] < wave.span[0]:
            return told[0]
        told.append(f"block {block.name}")
        at = self._at(block.inner, row.span[0])
        if row.op and at >= 0:
            told.append(f"instruction {at + 1} of {len(block.inner)} in the block")
            if row.op in KINDS and KINDS[row.op].memory:
                own = [it.span[0] for part in wave.inner for it in part.inner if it.is_memory]
                told.append(f"memory operation {own.index(row.span[0]) + 1} of {len(own)} in the wave's text")
        return ", ".join(told)

    @staticmethod
    def _at(parts: list[Part], offset: int) -> int:
        """The place of the last of some parts that begins no later than this; -1 where none does."""
        return bisect_right(parts, offset, key=lambda it: it.span[0]) - 1

    def _last(self, parts: list[Part], offset: int) -> Part | None:
        at = self._at(parts, offset)
        return parts[at] if at >= 0 else None

    def _of_word(self, row: Row | None, offset: int) -> Hover | None:
        at = next((at for at, it in enumerate(row.words) if it.span[0] <= offset < it.span[1]), None) if row else None
        if row is None or at is None:
            return None
        word = row.words[at]
        if row.section:
            known = meanings.LINES.get(word.text) if at == 0 else None
            return Hover(word.span, known or word_value(word.text)) if known or is_number(word.text) else None
        if at == 2 and row.op in KINDS:
            return Hover(word.span, meanings.instruction(row.op))
        if told := self._of_note(row, at):
            return told
        if row.text(at - 1) == "." and at > 1:
            at, word = at - 2, row.words[at - 2]  # the port of a destination
        if here := self.index.at(word.span[0]):
            if told := self._of_label(here, row, at):
                return told
        if at == 0 and word.text in meanings.LINES or word.text == "send":
            return Hover(word.span, meanings.SEND_EXIT if word.text == "send" else meanings.LINES[word.text])
        return Hover(word.span, word_value(word.text)) if is_number(word.text) else None

    def _of_label(self, here: Occurrence, row: Row, at: int) -> Hover | None:
        """The line of what is named; of a destination also what comes to the port."""
        line = self.lines.get(cast(Key, here.key))
        if line is None:
            return None
        told = f"```\n{self.text[line.span[0]:line.span[1]].strip()}\n```"
        port = row.text(at + 2)
        if row.text(at + 1) == "." and is_number(port) and len(port) < 9 and line.op in KINDS:
            ports = meanings.ports_of(line.op)
            told += (f"\nPort {port}: {ports[int(port)]}." if int(port) < len(ports)
                     else f"\n`{line.op}` has no port {port}.")
        elif line.op in KINDS and not here.defines:
            told += f"\n{meanings.INSTRUCTIONS[line.op]}"
        return Hover(here.span, told)

    def _of_note(self, row: Row, at: int) -> Hover | None:
        """The parts of a note `<PRED, SEQ, SUCC>.RIPPLE`."""
        texts = [it.text for it in row.words]
        if row.op not in KINDS or "<" not in texts or ">" not in texts or not KINDS[row.op].memory:
            return None
        begin, end = texts.index("<"), texts.index(">") + 2
        parts = [it for it in texts[begin:end + 1] if it not in ("<", ">", ",")]
        if not begin <= at <= end or len(parts) != 5 or end >= len(texts):
            return None
        pred, seq, succ, _, ripple = parts
        told = (f"Number {seq} in its wave. Before it: {_link(pred, 'the first')}. After it: {_link(succ, 'the last')}. "
                f"Ripple {ripple}: " + ("once the chain has passed a number of this or more in its wave, it may go "
                                        "before its turn." if row.op == "load" else
                                        "its own number, since it can write." if ripple == seq else
                                        "the last number before it that can write."))
        return Hover((row.words[begin].span[0], row.words[end].span[1]), told)

    def completions(self, offset: int) -> list[Item]:
        """Mnemonics behind a label, labels in lists, blocks in exits, and the heads of lines."""
        row = self._row_at(offset)
        if row is None or row.section or "#" in self.text[row.span[0]:offset]:
            return []
        marks = (":", "->", "|")  # right behind which a word begins
        before = [it.text for it in row.words if it.span[1] < offset or it.span[1] == offset and it.text in marks]
        labels = [Item(name, REFERENCE_ITEM, _brief(self.lines[kind, name], self.text)) for kind, name in self.lines
                  if kind == "instruction"]
        blocks = [Item(name, FUNCTION_ITEM, f"block {name}") for kind, name in self.lines if kind == "block"]
        if not before:
            return [Item(word, KEYWORD_ITEM, meanings.LINES.get(word, meanings.SEND_EXIT)) for word in (*HEADS, *EXITS)]
        if before[1:2] == [":"] and len(before) == 2:
            return [Item(op, OPERATOR_ITEM, meanings.INSTRUCTIONS[op]) for op in KINDS]
        if before[0] in ("if", "send") and len(before) == 1 or "->" in before or before[0] == "pad":
            return labels
        return blocks if before[0] in ("go", "if", "send") else []


def _link(part: str, edge: str) -> str:
    if part == ".":
        return f"nothing, it is {edge} of its wave"
    return "which, depends on the path" if part == "?" else f"number {part}"


def _brief(row: Row, text: str) -> str:
    return text[row.span[0]:row.span[1]].split("#")[0].strip()


def rows_of(document: Document) -> list[Row]:
    """The lines of a text, with the section in which each stands."""
    rows, section = list[Row](), 0
    for start, line in zip(document.own_starts, document.text.split("\n")):
        line = line.removesuffix("\r")
        own = line if line in MARKS else line.partition("#")[0]
        words = tuple(Word(it[0], (start + it.start(), start + it.end())) for it in LEXEME.finditer(own))
        if line in MARKS[section:]:
            section = MARKS.index(line) + 1
        rows.append(Row(words, section, (start, start + len(line))))
    return rows
