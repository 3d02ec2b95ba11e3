"""Reads an assembly line by line, and goes on behind a fault: all faulty lines, and the image so far as it can be read.

A line that has no form is skipped, an instruction that can't be read still counts, and own numbers are counted on from
the one that stands there. `Text.faults` has all that is wrong; `Text.first()` is the fault that `wsc check` names.

Lines in the form that `wsc compile` prints are read all at once (`rows_of`). A line of another layout, and each at which
something is to be said, is read lexeme by lexeme. Columns, in characters from 1, are found when they are told.
"""

from __future__ import annotations

import re
from collections.abc import Iterator, Sequence
from typing import NoReturn, Union

from wavescalar.isa import KINDS, LIMITS, NOTES, WORDS

LEXEME = re.compile(r"[A-Za-z_][A-Za-z0-9_]*|[0-9]+|->|[^ \t]")
LABEL, COUNT = "(?:[A-Za-z_][A-Za-z0-9_]*|[0-9]+)", "(?:0|[1-9][0-9]{0,8})"
NAMED = re.compile("[A-Za-z_]")
DESTS = rf"(?: {LABEL}\.[0-2])*"
# An instruction as it is printed: label, word, number, the four parts of a note, the lists with the marks before them.
# The last group is any other line.
ROW = re.compile(
    rf"^(?:({LABEL}): ([a-z]+)(?: (0|[1-9][0-9]{{0,19}}))?(?: <([?.]|{COUNT}), ({COUNT}), ([?.]|{COUNT})>\.({COUNT}))?"
    rf"( ->{DESTS})?( \|{DESTS})?|(.*))$", re.MULTILINE)
EXIT = re.compile(rf"(go|if|send|stop)((?: {LABEL})*)")
DEST = re.compile(rf"({LABEL})[ \t]*\.[ \t]*[0-9]+")
Row = tuple[str, str, str, str, str, str, str, str, str, str]
Ref = Union[int, str]
Note = tuple[Ref, int, Ref, int]
Dest = tuple[Ref, int, int]  # a label, a port, a column

# The lines that part a text: behind them stand the input and the trace.
MARKS = ("%input", "%trace")
BETWEEN = {":", "->", "|", ".", ",", "<", ">", "?"}
MEMORY = {op for op, kind in KINDS.items() if kind.memory}
NUMBERED = {op for op, kind in KINDS.items() if kind.argument}
SPECIAL = {"advance", "steer", "send", "halt"}
# Whether a number, a note, a first and a second list stand behind a word.
USUAL = {op: (kind.argument is not None, kind.memory, kind.lists > 0, kind.lists > 1) for op, kind in KINDS.items()}
# Which number may stand behind a word, from and below; arrays are counted.
RANGES = {"const": (0, WORDS), "send": (0, 16), "give": (1, 8), "take": (1, 8)}
FORMS = {"array": "array NAME LENGTH", "hidden": "hidden LENGTH", "wave": "wave K", "block": "block B",
         "pad": "pad K I.P ..", "go": "go B", "if": "if S B C", "send": "send S L M ..", "stop": "stop", "end": "end"}
HEADS = {"first": "wavescalar 1 or wavescalar 2", "arrays": "array, hidden or wave", "block": "block",
         "pads": "pad, an instruction `N: ..` or an exit", "instrs": "an instruction `N: ..` or an exit",
         "next": "block, wave or end", "done": "nothing"}
BODY = ("pads", "instrs")
# Of several faults of a line `wsc check` names these first.
ORDER = {"line": 0, "version": 0, "number": 1, "limit": 2, "name": 3}


class Finding:
    """A fault of a text: line and column, from 1, the rule, what is wrong and how it is mended.

    check: what `wsc check` says of such a fault. about: the number, name and block of the instruction that is meant, or
    the number and name of the block. seen: 0 as its line is read, 1 as the text ends, 2 as what labels name is looked up.
    """

    __slots__ = ("line", "column", "rule", "message", "mend", "check", "about", "seen")

    def __init__(self, line: int, column: int, rule: str, message: str, mend: str = "", check: str = "",
                 about: dict[str, int | str] | None = None, seen: int = 0) -> None:
        self.line, self.column, self.rule, self.message, self.mend = line, column, rule, message, mend
        self.check, self.about, self.seen = check, about or {}, seen


class NoForm(Exception):
    """The line has no form that may stand there: the column, and what is wrong."""


class Instr:
    """An instruction: `lists` are ports of instructions, each the one pair that stands in its `ports`.

    op is `?` where the line can't be read. note has the predecessor, the number, the successor and the ripple.
    """

    __slots__ = ("number", "name", "op", "arg", "note", "lists", "block", "wave", "line", "column", "ports")

    def __init__(self, number: int, name: str | None, op: str, arg: int | None, note: Note | None, block: "Block",
                 line: int, column: int) -> None:
        self.number, self.name, self.op, self.arg, self.note = number, name, op, arg, note
        self.block, self.wave, self.line, self.column = block, block.wave, line, column
        self.lists: tuple[list[Slot], list[Slot]] = ([], [])
        count = KINDS[op].ports if op in KINDS else 1
        self.ports: tuple[Slot, ...] = ((self, 0),) if count == 1 else tuple((self, port) for port in range(count))

    def called(self) -> str:
        """The number, with the name."""
        return f"{self.number} ({self.name})" if self.name else str(self.number)


Slot = tuple[Instr, int]


class Pad:
    """A pad: the ports that it gives to, and where it stands."""

    def __init__(self, line: int, column: int) -> None:
        self.slots: list[Slot] = []
        self.line, self.column = line, column


class Block:
    """A block: its pads, its instructions, and its exit, with the word, the instruction that is named, and the targets.

    memory: its memory operations. special: its advances, steers, sends and halts. faulty: a line of it can't be read, or
    names what isn't there.
    """

    def __init__(self, number: int, name: str | None, wave: int, line: int, column: int) -> None:
        self.number, self.name, self.wave, self.line, self.column = number, name, wave, line, column
        self.pads: dict[int, Pad] = {}
        self.instrs: list[Instr] = []
        self.memory: list[Instr] = []
        self.special: list[Instr] = []
        self.kind, self.refs = "", list[Ref]()
        self.source: Instr | None = None
        self.targets: list[Block] = []
        self.exit_at, self.faulty = (line, column), False

    def called(self) -> str:
        """The number, with the name."""
        return f"{self.number} ({self.name})" if self.name else str(self.number)


class Words:
    """The lexemes of a line, read from the left."""

    def __init__(self, line: str) -> None:
        own = line.partition("#")[0]
        self.all = [(m[0], m.start() + 1) for m in LEXEME.finditer(own)]
        self.at, self.end = 0, len(own.rstrip()) + 1

    def next(self) -> str:
        return self.all[self.at][0] if self.at < len(self.all) else ""

    def column(self) -> int:
        return self.all[self.at][1] if self.at < len(self.all) else self.end

    def fail(self, wanted: str) -> NoReturn:
        there = f"`{self.next()}` stands" if self.next() else "the line ends"
        raise NoForm(self.column(), f"{there} where {wanted} should")

    def take(self, mark: str) -> None:
        if self.next() != mark:
            self.fail(f"`{mark}`")
        self.at += 1

    def number(self, wanted: str = "a number") -> int:
        if not is_number(self.next()):
            self.fail(wanted)
        self.at += 1
        return int(self.all[self.at - 1][0])

    def word(self, wanted: str) -> str:
        if not is_name(self.next()):
            self.fail(wanted)
        self.at += 1
        return self.all[self.at - 1][0]

    def label(self, version: int, wanted: str) -> tuple[Ref, int]:
        """A number, or in version 2 a name, with its column."""
        column = self.column()
        return (self.word(wanted) if version == 2 and is_name(self.next()) else self.number(wanted)), column

    def dests(self, version: int, stop: str = "") -> list[Dest]:
        """Destinations I.P, up to this mark."""
        found: list[Dest] = []
        while self.next() and self.next() != stop:
            label, column = self.label(version, "a destination I.P")
            self.take(".")
            found.append((label, self.number("the port's number"), column))
        return found

    def done(self) -> None:
        if self.at < len(self.all):
            self.fail("the line's end")


def is_number(word: str) -> bool:
    return word.isascii() and word.isdigit()


def is_name(word: str) -> bool:
    return word.isascii() and (word[:1].isalpha() or word[:1] == "_")


def lexemes_of(line: str) -> list[str]:
    """The lexemes of a line, without its comment; what belongs to none is one of a character."""
    return [word for word, _ in Words(line).all]


def lines_of(text: str) -> list[str]:
    """The lines, without what ends them."""
    return [line.removesuffix("\r") for line in text.split("\n")]


def rows_of(lines: Sequence[str]) -> list[Row]:
    """The parts of each line as `ROW` has them."""
    found: list[Row] = ROW.findall("\n".join(lines))
    return found


def note_of(pred: str, seq: str, succ: str, ripple: str) -> Note:
    return pred if pred in "?." else int(pred), int(seq), succ if succ in "?." else int(succ), int(ripple)


class Text:
    """The image of a text, so far as it can be read: item K, from 1, stands at place K - 1.

    faults: the faulty lines, by place. whole: there is none, so that the image is the text's. version: 1 where it can't
    be read. arrays: names and lengths. last: the number of the line where the text ends, if lines stand behind those given.
    """

    def __init__(self, lines: Sequence[str], last: int = 0, rows: Sequence[Row] | None = None) -> None:
        self.faults: list[Finding] = []
        self.version, self.lines, self.limits = 1, lines, LIMITS[1]
        self.arrays: list[tuple[str | None, int]] = []
        self.blocks, self.instrs = list[Block](), list[Instr]()
        self.waves = self.cells = 0
        self.named_instrs, self.named_blocks = dict[Ref, Instr](), dict[Ref, Block]()
        self.wanted = {"wave": 1, "block": 1, "instruction": 1}
        self.state, self.astray = "first", False
        self.waiting: list[tuple[Block, int, list[Dest], list[Slot]]] = []
        self.said: list[tuple[Instr, str, str]] = []  # instructions whose lists aren't looked up
        self.where: dict[str, Slot] = {}
        self.scan(rows or rows_of(lines))
        if self.state != "done":
            self.add(last or len(lines), 1, "line", f"the text ends where {HEADS[self.state]} should stand",
                     "write `end` in the last line" if self.state == "next" else "", seen=1)
        self.references()
        self.whole = not self.faults
        self.faults.sort(key=lambda f: (f.line, f.column))

    def scan(self, rows: Sequence[Row]) -> None:
        """Reads all lines."""
        for at, row in enumerate(rows, 1):
            if row[1]:
                if self.state in BODY and self.quick(row, at):
                    continue
            elif not row[9] or self.quick_head(row[9], at):
                continue
            words = Words(self.lines[at - 1])
            if words.all:
                self.read(words, at)

    def first(self) -> Finding | None:
        """The fault that `wsc check` names, if there is one."""
        def turn(fault: Finding) -> tuple[int, ...]:
            return fault.seen, fault.line, ORDER[fault.rule] if not fault.seen else 0, fault.column

        return min(self.faults, key=turn) if self.faults else None

    def add(self, line: int, column: int, rule: str, message: str, mend: str = "",
            about: dict[str, int | str] | None = None, seen: int = 0) -> None:
        self.faults.append(Finding(line, column, rule, message, mend, f"refused {line} {rule}", about, seen))

    # Lines in their usual form, of which nothing is to be said.

    def quick(self, row: Row, at: int) -> bool:
        """Reads an instruction; whether it is one, and right."""
        label, op, arg, pred, seq, succ, ripple, first, second, _ = row
        if (arg != "", seq != "", first != "", second != "") != USUAL.get(op):
            return False
        number, name = len(self.instrs) + 1, None
        if label != str(self.wanted["instruction"]):
            if self.version == 1 or label[0].isdigit() or label in self.named_instrs or len(label) > 64:
                return False
            name = label
        if self.version == 1 and NAMED.search(first + second):
            return False
        if arg:
            least, below = RANGES.get(op) or (1, len(self.arrays) + 1)
            if not least <= int(arg) < below:
                return False
        if number > self.limits.instructions:
            return False
        self.wanted["instruction"] += 1
        made = Instr(number, name, op, int(arg) if arg else None, note_of(pred, seq, succ, ripple) if seq else None,
                     self.blocks[-1], at, 1)
        if len(first) > 3 or len(second) > 2:
            self.said.append((made, first[3:], second[2:]))
        self.instruction(made, label)
        self.state = "instrs"
        return True

    def quick_head(self, line: str, at: int) -> bool:
        """A line that begins a block or a wave, or an exit."""
        if self.state in BODY:
            return self.quick_exit(line, at)
        number, wave = len(self.blocks) + 1, self.waves + 1
        if self.state in ("block", "next") and line == f"block {number}" and self.wanted["block"] == number:
            self.block(number, at, 7)
            return True
        if self.state == "next" and line == f"wave {wave}" and self.wanted["wave"] == wave <= self.limits.waves:
            self.waves, self.wanted["wave"], self.state = wave, wave + 1, "block"
            return True
        return False

    def quick_exit(self, line: str, at: int) -> bool:
        parts = EXIT.fullmatch(line)
        if not parts:
            return False
        kind, refs = parts[1], parts[2].split()
        if not all(ref.isdigit() and len(ref) < 20 or self.version == 2 and not ref[0].isdigit() and len(ref) <= 64
                   for ref in refs):
            return False
        if not {"go": 1, "if": 3, "stop": 0}.get(kind, 2) <= len(refs) <= {"send": self.limits.landings + 1}.get(kind, 3):
            return False
        if kind in ("go", "stop") and len(refs) != (kind == "go"):
            return False
        self.leave(kind, [int(ref) if ref.isdigit() else ref for ref in refs], at, 1)
        return True

    # All others.

    def read(self, words: Words, at: int) -> None:
        begin = len(self.instrs)
        try:
            self.line(words, at)
        except NoForm as fault:
            column, message = fault.args
            head = words.all[0][0]
            strange = [w for w, _ in words.all if not (is_number(w) or is_name(w)) and w not in BETWEEN]
            mend = f"its form is `{FORMS[head]}`" if head in FORMS else ""
            if strange:
                mend = f"`{strange[0]}` belongs to no lexeme"
            self.add(at, column, "line", message, mend)
            if self.blocks:
                self.blocks[-1].faulty = True
            self.recover(words, at, begin)

    def recover(self, words: Words, at: int, begin: int) -> None:
        """Goes on as if the line had said what it seems to say."""
        head, second = words.all[0][0], words.all[1][0] if len(words.all) > 1 else ""
        if self.state == "first":
            self.state = "arrays"
        elif second == ":" and self.state in ("pads", "instrs", "next"):
            if len(self.instrs) == begin:
                self.stray()
                name = None if is_number(head) else head
                self.instruction(Instr(begin + 1, name, "?", None, None, self.blocks[-1], at, 1), head)
                self.wanted["instruction"] = int(head) + 1 if is_number(head) else self.wanted["instruction"] + 1
            self.state = "instrs"
        elif head in ("go", "if", "send", "stop") and self.state in BODY:
            self.state = "next"
        elif head == "wave":
            self.waves, self.state = self.waves + 1, "block"
            self.wanted["wave"] = self.waves + 1
        elif head == "block":
            self.block(None, at, 1)
        elif head == "end":
            self.state = "done"

    def line(self, words: Words, at: int) -> None:
        head, colon = words.next(), len(words.all) > 1 and words.all[1][0] == ":"
        if self.state == "first":
            words.take("wavescalar")
            version = words.number("the version")
            words.done()
            self.state = "arrays"
            if version not in LIMITS:
                self.add(at, words.all[1][1], "version", f"there is no version {version}", "write 1 or 2")
            self.version = 1 if version == 1 else 2
            self.limits = LIMITS[self.version]
        elif self.state == "arrays" and head in ("array", "hidden"):
            self.array(words, at)
        elif self.state in ("arrays", "next") and head == "wave":
            words.at += 1
            self.own("wave", words.number("the wave's number"), at, words.all[1][1])
            words.done()
            self.waves, self.state = self.waves + 1, "block"
            if self.waves > self.limits.waves:
                self.add(at, 1, "limit", "too many waves")
        elif self.state in ("block", "next") and head == "block":
            words.at += 1
            label, column = words.label(self.version, "the block's number or name")
            words.done()
            self.block(label, at, column)
        elif self.state == "next" and head == "end":
            words.at += 1
            words.done()
            self.state = "done"
        elif self.state == "pads" and head == "pad" and not colon:
            self.pad(words, at)
        elif self.state in BODY and colon:
            self.state = "instrs"
            self.instr(words, at)
        elif self.state in BODY and head in ("go", "if", "send", "stop"):
            self.exit(words, at)
        else:
            words.fail(HEADS[self.state])

    def own(self, kind: str, number: int, at: int, column: int) -> None:
        """A number that is the next in count; where it isn't, counting goes on from it."""
        wanted = self.wanted[kind]
        if number != wanted:
            if kind == "instruction":
                self.stray()
            self.add(at, column, "number", f"this {kind} has the number {number}, and {wanted} is next",
                     f"write {wanted}, and count on from it")
        self.wanted[kind] = number + 1

    def stray(self) -> None:
        """From here on instructions are found by their own numbers; up to here each counts as it says."""
        if not self.astray:
            self.astray = True
            self.named_instrs.update((it.number, it) for it in self.instrs if not it.name)

    def short(self, name: Ref, at: int, column: int) -> None:
        """A name of at most 64 bytes, or a number below 2^64."""
        if isinstance(name, int):
            if name >= WORDS:
                self.add(at, column, "number", "the number is 2^64 or more")
        elif len(name) > 64:
            self.add(at, column, "limit", f"the name has {len(name)} bytes, and 64 are the most")

    def once(self, name: str, at: int, column: int, kind: str, other: Instr | Block | None) -> None:
        """A name that no other item of its kind has."""
        self.short(name, at, column)
        if other:
            self.add(at, column, "name", f"the {kind} in line {other.line} has the name {name} too", "take another name")

    def array(self, words: Words, at: int) -> None:
        head = words.word("array or hidden")
        name = words.word("the array's name") if head == "array" else None
        column, length = words.column(), words.number("the array's length")
        words.done()
        self.cells += length
        if name:
            self.short(name, at, words.all[1][1])
        most = self.limits
        if length >= WORDS:
            self.add(at, column, "number", "the length is 2^64 or more")
        elif len(self.arrays) >= most.arrays or length > most.length or self.cells > most.cells:
            self.add(at, column, "limit", f"array {len(self.arrays) + 1} of length {length}: 256 arrays of 65,536 "
                     "cells, and 2,097,152 cells in all, are the most")
        self.arrays.append((name, length))

    def block(self, label: Ref | None, at: int, column: int) -> None:
        number, name = len(self.blocks) + 1, label if isinstance(label, str) else None
        if name:
            self.once(name, at, column, "block", self.named_blocks.get(name))
        elif isinstance(label, int):
            self.own("block", label, at, column)
        made = Block(number, name, self.waves, at, column)
        if not isinstance(label, int):
            self.wanted["block"] += 1
        self.named_blocks.setdefault(number if label is None else label, made)
        self.blocks.append(made)
        self.state = "pads"
        if number > self.limits.blocks:
            self.add(at, column, "limit", "too many blocks")

    def long(self, dests: list[Dest], at: int, column: int) -> None:
        for label, port, place in dests:
            self.short(label, at, place)
            if port > 2:
                self.add(at, place, "number", f"no instruction has a port {port}")
        if len(dests) > self.limits.destinations:
            self.add(at, column, "limit", f"{len(dests)} destinations, and 8 are the most",
                     "send to a `merge`, and list the others there")

    def pad(self, words: Words, at: int) -> None:
        words.at += 1
        column, number = words.column(), words.number("the pad's number")
        dests = words.dests(self.version)
        words.done()
        block = self.blocks[-1]
        if block.pads and number <= max(block.pads):
            self.add(at, column, "number", f"pad {number} stands behind pad {max(block.pads)}",
                     "pads stand in rising order")
        elif number >= WORDS:
            self.add(at, column, "number", "the pad's number is 2^64 or more")
        elif number > 15:
            self.add(at, column, "limit", f"pad {number}: pads have the numbers 0 to 15")
        self.long(dests, at, column)
        block.pads[number] = Pad(at, column)
        self.waiting.append((block, at, dests, block.pads[number].slots))

    def instruction(self, made: Instr, label: str) -> None:
        """Takes an instruction into its block; by what its text calls them its ports are found."""
        if made.name or self.astray:
            self.named_instrs.setdefault(made.name or int(label), made)
        for pair in made.ports:
            self.where.setdefault(f"{label}.{pair[1]}", pair)
        block, op = made.block, made.op
        block.instrs.append(made)
        if op in MEMORY:
            block.memory.append(made)
        if op in SPECIAL:
            block.special.append(made)
        self.instrs.append(made)

    def instr(self, words: Words, at: int) -> None:
        label, column = words.label(self.version, "the instruction's number or name")
        words.take(":")
        op = words.word("an operation")
        if op not in KINDS:
            words.at -= 1
            words.fail("an operation")
        arg_at, arg = words.column(), words.number("a number") if op in NUMBERED else None
        note_at, note = words.column(), self.note(words) if op in MEMORY else None
        lists: list[list[Dest]] = []
        lists_at = words.column()
        if KINDS[op].lists:
            words.take("->")
            lists.append(words.dests(self.version, "|" if KINDS[op].lists > 1 else ""))
        if KINDS[op].lists > 1:
            words.take("|")
            lists.append(words.dests(self.version))
        words.done()
        name, other = (label, self.named_instrs.get(label)) if isinstance(label, str) else (None, None)
        made = Instr(len(self.instrs) + 1, name, op, arg, note, self.blocks[-1], at, column)
        about: dict[str, int | str] = {"instruction": made.number, **({"name": name} if name else {})}
        if isinstance(label, str):
            self.once(label, at, column, "instruction", other)
            self.wanted["instruction"] += 1
        else:
            self.own("instruction", label, at, column)
        self.instruction(made, str(label))
        if arg is not None:
            self.argument(op, arg, at, arg_at, about)
        counts = [part for part in note or () if isinstance(part, int)]
        if any(part >= WORDS for part in counts):
            self.add(at, note_at, "number", "a number of the note is 2^64 or more", "", about)
        elif any(part >= NOTES for part in counts):
            self.add(at, note_at, "limit", "a number of the note is 2^32 or more", "", about)
        for dests, into in zip(lists, made.lists):
            self.long(dests, at, lists_at)
            self.waiting.append((made.block, at, dests, into))
        if made.number > self.limits.instructions:
            self.add(at, column, "limit", "too many instructions")

    def argument(self, op: str, arg: int, at: int, column: int, about: dict[str, int | str]) -> None:
        """The number behind the word."""
        if arg >= WORDS:
            self.add(at, column, "number", "the number is 2^64 or more", "", about)
        elif op == "send" and arg > 15:
            self.add(at, column, "limit", f"pad {arg}: pads have the numbers 0 to 15", "", about)
        elif op in ("give", "take") and not 1 <= arg <= 7:
            self.add(at, column, "limit", f"port {arg}: `{op}` has the ports 1 to 7", "", about)
        elif op in ("load", "store") and not 1 <= arg <= len(self.arrays):
            self.add(at, column, "number", f"there is no array {arg}: the text has {len(self.arrays)}",
                     "arrays go by number, from 1, in the order of their lines", about, 2)

    def note(self, words: Words) -> Note:
        def link() -> Ref:
            if words.next() in ("?", "."):
                words.at += 1
                return words.all[words.at - 1][0]
            return words.number("a sequence number, `.` or `?`")

        if words.next() != "<":
            words.fail("the note `<PRED, SEQ, SUCC>.RIPPLE`")
        words.at += 1
        pred = link()
        words.take(",")
        seq = words.number("the sequence number")
        words.take(",")
        succ = link()
        words.take(">")
        words.take(".")
        return pred, seq, succ, words.number("the ripple number")

    def exit(self, words: Words, at: int) -> None:
        kind, column = words.next(), words.column()
        words.at += 1
        refs: list[tuple[Ref, int]] = []
        for what in {"go": ["a block"], "if": ["an instruction", "a block", "a block"],
                     "send": ["an instruction", "a landing"]}.get(kind, []):
            refs.append(words.label(self.version, what))
        while kind == "send" and words.next():
            refs.append(words.label(self.version, "a landing"))
        words.done()
        if len(refs) - 1 > self.limits.landings:
            self.add(at, column, "limit", f"{len(refs) - 1} landings")
        for label, place in refs:
            self.short(label, at, place)
        self.leave(kind, [label for label, _ in refs], at, column)

    def leave(self, kind: str, refs: list[Ref], at: int, column: int) -> None:
        block = self.blocks[-1]
        block.kind, block.refs, block.exit_at, self.state = kind, refs, (at, column), "next"

    # What labels name.

    def column(self, line: int, place: int) -> int:
        """The column of a destination of an instruction or pad: the places of all its lists count from 0."""
        text = self.lines[line - 1]
        start = text.find("->") + 2 if "->" in text else 0
        found = [m.start(1) + 1 for m in DEST.finditer(text.partition("#")[0], start)]
        return found[place] if place < len(found) else 1

    def exit_column(self, line: int, place: int) -> int:
        """The column of a label of an exit, counted from 0."""
        return Words(self.lines[line - 1]).all[place + 1][1]

    def instr_of(self, label: Ref) -> Instr | None:
        """What a label stands for, by its own name or number."""
        found = self.named_instrs.get(label)
        return self.instrs[label - 1] if not found and isinstance(label, int) and 1 <= label <= len(self.instrs) else found

    def block_of(self, label: Ref) -> Block | None:
        found = self.named_blocks.get(label)
        return self.blocks[label - 1] if not found and isinstance(label, int) and 1 <= label <= len(self.blocks) else found

    def lacks(self, kind: str, label: Ref, at: int, column: int) -> None:
        """Nothing has this label."""
        what, near = "number", list[str]()
        if isinstance(label, str):
            import difflib
            known = list(self.named_instrs) if kind == "instruction" else list(self.named_blocks)
            what, near = "name", difflib.get_close_matches(label, map(str, known), 1)
        self.add(at, column, what, f"no {kind} has the {what} {label}", f"perhaps {near[0]}?" if near else "", seen=2)

    def references(self) -> None:
        """Puts instructions and blocks in the place of labels."""
        where, most = self.where, self.limits.destinations
        for it, first, second in self.said:
            try:
                one = [where[dest] for dest in first.split()]
                two = [where[dest] for dest in second.split()] if second else it.lists[1]
                if len(one) <= most and len(two) <= most:
                    it.lists = (one, two)
                    continue
            except KeyError:
                pass
            self.slowly(it)
        for block, at, dests, into in self.waiting:
            for label, port, column in dests:
                found = self.instr_of(label)
                if not found:
                    self.lacks("instruction", label, at, column)
                    block.faulty = True
                    continue
                if found.op != "?" and len(found.ports) <= port <= 2:
                    self.add(at, column, "number", f"instruction {found.called()} is `{found.op}` and has no port {port}",
                             f"its ports are 0 to {len(found.ports) - 1}", seen=2)
                into.append(found.ports[port] if port < len(found.ports) else (found, port))
        for block in self.blocks:
            self.exit_of(block)

    def slowly(self, it: Instr) -> None:
        """Reads the lists of an instruction with a destination that isn't there, or with many."""
        words = Words(self.lines[it.line - 1])
        words.at = lexemes_of(self.lines[it.line - 1]).index("->") + 1
        column = words.column()
        for into in it.lists[: KINDS[it.op].lists]:
            dests = words.dests(self.version, "|")
            words.at += 1
            self.long(dests, it.line, column)
            self.waiting.append((it.block, it.line, dests, into))

    def exit_of(self, block: Block) -> None:
        """Looks up what the exit of a block names."""
        if not block.kind:
            block.faulty, block.kind = True, "stop"
            return
        (at, _), leads = block.exit_at, 1 if block.kind in ("if", "send") else 0
        for place, label in enumerate(block.refs):
            found = self.instr_of(label) if place < leads else self.block_of(label)
            if isinstance(found, Instr):
                block.source = found
            elif found:
                block.targets.append(found)
            else:
                block.faulty = True
                self.lacks("instruction" if place < leads else "block", label, at, self.exit_column(at, place))


def sections_of(lines: Sequence[str]) -> Iterator[tuple[int, int]]:
    """The parts of a text, its own, the input and the trace, as far as they are there: where each begins and ends,
    counted in lines from 0."""
    begin = 0
    for mark in MARKS:
        try:
            at = lines.index(mark, begin)
        except ValueError:
            break
        yield begin, at
        begin = at + 1
    yield begin, len(lines)


__all__ = ["MARKS", "Block", "Finding", "Instr", "Note", "Pad", "Row", "Slot", "Text", "lexemes_of", "lines_of",
           "rows_of", "sections_of"]
