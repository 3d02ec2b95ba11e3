"""Whether a text is surely right: a sound image, or a draft that can get notes. It is gone over block by
block, with no object for a line; a text that isn't surely right is looked at by rules.py, which tells.

A token is the text of its port, `I.P`, as lists name it. It has to be taken by an instruction behind it on
each path, or by an advance of the wave that follows: so what is sent backwards, into another wave or to what
isn't there shows as a token that is left, and so does an exit that leads there. Each wave is looked at, also
one that no path reaches.
"""

from __future__ import annotations

import re
from collections.abc import Iterable
from typing import Any

from wavescalar.diagnose.draft_check import GIVES, Fit
from wavescalar.isa import KINDS, LIMITS
from wavescalar.reader import MEMORY, RANGES, SPECIAL, USUAL, lexemes_of

LABEL, COUNT = "[A-Za-z0-9_]+", "(?:0|[1-9][0-9]{0,8})"
NAME = re.compile("[A-Za-z_][A-Za-z0-9_]{0,63}")
DESTS = rf"(?: {LABEL}\.[0-2]){{0,{LIMITS[1].destinations}}}"
# A line as it is printed: of an instruction label, head, first list, second list with its mark; or any other.
ROW = re.compile(rf"^(?:({LABEL}): ([a-z][^-|\n]*(?:->)?)({DESTS})( \|{DESTS})?|(.*))$", re.MULTILINE)
# A head: word, number, the four parts of a note, the mark of the lists.
NOTE = rf"<([?.]|{COUNT}), ({COUNT}), ([?.]|{COUNT})>\.({COUNT})"
HEAD = re.compile(rf"([a-z]+)(?: (0|[1-9][0-9]{{0,19}}))?(?: {NOTE})?( ->)?")
PAD = re.compile(rf"pad ({COUNT})({DESTS})")
FRONT = re.compile(rf"wavescalar ([12])((?:\n(?:array {NAME.pattern}|hidden) {COUNT})*)\nwave 1")
# Other lines in the printed layout; a line of another layout is brought to it.
OTHER = re.compile(rf"wavescalar [12]|(?:array {NAME.pattern}|hidden|wave) {COUNT}|block {LABEL}|"
                   rf"{PAD.pattern}|(?:go|if|send)(?: {LABEL})+|stop|end")
EXITS = {"go": (1, 1), "if": (3, 3), "send": (2, 2049), "stop": (0, 0)}  # how many labels
WRITES = MEMORY - {"load", "nop"}
# A line as ROW parts it; a note with its sequence and ripple numbers as such and its word; what a head means; what comes to a
# block: tokens, the last operations, the number of the last that writes.
Row = tuple[str, str, str, str, str]
Note = tuple[str, str, str, int, int, str]
Meant = tuple[int, Note | None, str]
Come = tuple[set[str], Iterable[Note | None], int]


class Perhaps(Exception):
    """The text isn't surely right."""


def want(holds: object) -> None:
    if not holds:
        raise Perhaps


def plain(line: str) -> str:
    """A line in the layout that the program prints, or something that has no form."""
    words = lexemes_of(line)
    if "-" in words:  # which is no part of `->` where a blank stands behind it
        return line
    text = " ".join(words).replace(" :", ":").replace(" ,", ",")
    return text.replace("< ", "<").replace(" >", ">").replace(" . ", ".")


def printed(lines: list[str]) -> list[str]:
    """The lines in that layout, those left out in which nothing stands; the same where all are so."""
    made = []
    for line, (_, head, _, _, other) in zip(lines, ROW.findall("\n".join(lines))):
        line = line if head and HEAD.fullmatch(head) or OTHER.fullmatch(other) else plain(line)
        if line:
            made.append(line)
    return made


class Heads(dict[str, Meant]):
    """What heads of instructions mean, as far as they were met: the count of ports, the note, and the word
    where more is to be done than to take tokens and to give them to one list."""

    def __init__(self, arrays: int) -> None:
        super().__init__()
        self.arrays = arrays

    def __missing__(self, head: str) -> Meant:
        found = HEAD.fullmatch(head)
        if not found:
            raise Perhaps
        op, arg, pred, seq, succ, ripple, mark = found.groups()
        number, memory, listed, _ = USUAL[op]
        want((arg is not None, seq is not None, mark is not None) == (number, memory, listed))
        if number:
            least, below = RANGES.get(op) or (1, self.arrays + 1)
            want(least <= int(arg) < below)
        note = (pred, seq, succ, int(seq), int(ripple), op) if memory else None
        self[head] = meant = (KINDS[op].ports, note, op if op in SPECIAL else "")
        return meant


class Block:
    """A block as draft_check.py looks at it."""

    line = column = 0

    def __init__(self, label: str, number: int, first: bool, kind: str, labels: list[str], rows: list[Row]) -> None:
        self.label, self.number, self.first, self.kind, self.labels = label, number, first, kind, labels
        self.rows, self.memory = rows, [row for row in rows if "<" in row[1]]
        self.targets: list[Block] = []

    @property
    def instrs(self) -> list[Instr]:
        return [Instr(row) for row in self.rows]

    @property
    def special(self) -> list[Instr]:
        return [it for it in self.instrs if it.op == "steer"]

    def called(self) -> str:
        return self.label


class Instr:
    """An instruction as draft_check.py looks at it."""

    def __init__(self, row: Row) -> None:
        self.number, self.op, self.lists = row[0], row[1].split()[0], (row[2].split(), row[3][2:].split())

    def called(self) -> str:
        return self.number


def joined(slots: set[str], opens: list[str]) -> set[str]:
    """What waits, with what an exit opens: each token is another."""
    tokens = slots.union(opens)
    if len(tokens) != len(slots) + len(opens):
        raise Perhaps
    return tokens


def ended(before: Iterable[Note | None]) -> bool:
    """Whether each of the operations that may be last in a wave says so."""
    return all(old and old[2] == "." for old in before)


class Surely:
    """One pass over a text. `Perhaps`, KeyError, IndexError or StopIteration: it isn't surely right."""

    def __init__(self, text: str, draft: bool) -> None:
        text = text.removesuffix("\n")
        front, *pieces = text.removesuffix("\nend").split("\nblock ")
        found = FRONT.fullmatch(front)
        if not found or not text.endswith("\nend"):
            raise Perhaps
        self.draft, self.version, self.most = draft, int(found[1]), LIMITS[int(found[1])]
        self.heads = Heads(self.lengths([int(line.split()[-1]) for line in found[2].splitlines()[1:]]))
        self.labels: list[str] = []  # of instructions
        self.called: list[str] = []  # of blocks
        self.blocks: list[Block] = []  # those of a draft
        self.due: dict[str, set[str]] = {}  # what the first block of each wave wants
        self.pads: dict[str, dict[int, list[str]]] = {}  # and its pads
        self.come: dict[str, Come] = {}  # what comes inside a wave
        self.left: list[tuple[str, set[str]]] = []  # out of it
        self.sent: list[tuple[str, set[str], list[int]]] = []  # by sends
        self.used: set[int] = set()
        self.first: dict[Block, bool] = {}
        self.wave, self.is_first, self.met = 1, True, {"advance": 0, "halt": 0, "send": 0}
        for piece in pieces:
            self.block(ROW.findall(piece))
        self.end()
        if draft:
            self.fit()

    def lengths(self, arrays: list[int]) -> int:
        """The count of arrays of these lengths."""
        most = self.most
        want(len(arrays) <= most.arrays and sum(arrays) <= most.cells)
        want(max(arrays, default=0) <= most.length)
        return len(arrays)

    def end(self) -> None:
        """What can be said where the text ends."""
        self.leave_wave()
        most = self.most
        want(len(self.labels) <= most.instructions and len(self.called) <= most.blocks)
        want(self.wave - 1 <= most.waves and not self.is_first)
        self.named(self.labels)
        self.named(self.called)
        want(self.met["advance"] == sum(map(len, self.due.values())) and not self.met["halt"])
        for label, slots, pads in self.sent:
            self.left.append((label, joined(slots, [dest for pad in pads for dest in self.pads[label][pad]])))
        want(all(self.due[label] == tokens for label, tokens in self.left))
        one = self.called[0]
        want(sorted(self.pads[one][0]) == sorted(self.due[one]))

    def named(self, labels: list[str]) -> None:
        """Each label is the number that is next, or a name that no other has."""
        if labels != list(map(str, range(1, len(labels) + 1))):
            own = [label for at, label in enumerate(labels, 1) if label != str(at)]
            want(self.version == 2 and len(set(own)) == len(own) and all(map(NAME.fullmatch, own)))

    # A block.

    def block(self, rows: list[Row]) -> None:
        """Goes over a block: rows of its label, its pads, its instructions, its exit, perhaps of a wave."""
        leave, last = rows.pop()[4], False
        if leave == f"wave {self.wave + 1}":
            leave, last = rows.pop()[4], True
        (kind, *labels), label, first = leave.split(" "), rows[0][4], self.is_first
        least, most = EXITS[kind]
        want(least <= len(labels) <= most)
        self.called.append(label)
        if first:
            rows = self.front(label, rows)
            before: Iterable[Note | None] = () if self.draft else (None,)
            slots, top = set(self.due[label]), 0
        else:
            del rows[0]
            slots, before, top = self.come.pop(label)
        self.labels += [row[0] for row in rows]
        memory, steers, pads = self.fire(rows, slots)
        if self.draft:
            self.blocks.append(Block(label, len(self.called), first, kind, labels, rows))
        else:
            before, top = self.noted(memory, before, top)
        want((kind == "stop") == bool(memory and memory[-1][5] == "halt") and (kind == "if" or not steers)
             and (kind == "send" or not pads))
        if kind == "go":
            self.arrive(labels[0], slots, before, top)
        elif kind == "if":
            self.chosen(rows, labels[0], [row[0] + ".1" for row in steers])
            lists = [row[2] for row in steers], [row[3][2:] for row in steers]
            for target, opens in zip(labels[1:], lists):
                self.arrive(target, joined(slots, "".join(opens).split()), before, top)
        elif kind == "send":
            self.chosen(rows, labels[0], [row[0] + ".0" for row in rows if row[1].startswith("send ")])
            self.send(labels[1:], slots, pads, before)
        else:
            self.met["halt"] -= 1
            want(not slots and ended(before))
        self.is_first = last
        if last:
            self.leave_wave()

    def front(self, label: str, rows: list[Row]) -> list[Row]:
        """The instructions of a first block. Notes its pads and what it wants: its advances' tokens."""
        pads: dict[int, list[str]] = {}
        due: set[str] = set()
        at = 1
        while rows[at][4]:
            found = PAD.fullmatch(rows[at][4])
            if not found:
                raise Perhaps
            number, dests = found.groups()
            want(max(pads, default=-1) < int(number) < self.most.pads)
            pads[int(number)] = dests.split()
            at += 1
        own = rows[at:]
        for name, head, _, _, _ in own:
            if head != "advance ->":
                break
            due.add(name + ".0")
        want(all(map(due.issuperset, pads.values())))
        self.due[label], self.pads[label] = due, pads
        return own

    def fire(self, rows: list[Row], slots: set[str]) -> tuple[list[Note], list[Row], list[int]]:
        """Lets instructions take tokens and give others: the notes, the rows of steers, the pads of sends."""
        heads, remove, update, size = self.heads, slots.remove, slots.update, len(slots)
        memory: list[Note] = []
        steers: list[Row] = []
        pads: list[int] = []
        for row in rows:
            label, head, one, two, _ = row
            ports, note, word = heads[head]
            remove(label + ".0")
            if ports > 1:
                remove(label + ".1")
                if ports > 2:
                    remove(label + ".2")
            size -= ports
            if word:
                if word == "steer":
                    if not two:
                        raise Perhaps
                    steers.append(row)
                    continue
                self.met[word] += 1
                if word == "send":
                    pads.append(int(head[5:]))
            if note:
                memory.append(note)
            if one:
                dests = one.split()
                size += len(dests)
                update(dests)
            if two:
                raise Perhaps
        if len(slots) != size:  # two tokens came to a port
            raise Perhaps
        return memory, steers, pads

    def chosen(self, rows: list[Row], source: str, ports: list[str]) -> None:
        """Looks whether the exit's result comes to all of these ports, directly or through merges."""
        own = next(row for row in rows if row[0] == source)
        fed = set(own[2].split())
        want(own[1].split()[0] in GIVES)
        if not fed.issuperset(ports):
            for label, head, one, _, _ in rows:
                if head == "merge ->" and label + ".0" in fed:
                    fed.update(one.split())
            want(fed.issuperset(ports))

    def arrive(self, label: str, tokens: set[str], before: Iterable[Note | None], top: int) -> None:
        """Notes what comes to a block: tokens, the last operations, the number of the last that writes."""
        found = self.come.get(label)
        if found:
            want(found[0] == tokens)
            before, top = {*before, *found[1]}, max(top, found[2])
        self.come[label] = tokens, before, top

    def send(self, labels: list[str], slots: set[str], pads: list[int], before: Iterable[Note | None]) -> None:
        """Notes what comes to landings, whose pads may stand further on."""
        want(len(labels) <= self.most.landings and ended(before))
        self.sent += [(label, slots, pads) for label in labels]

    def leave_wave(self) -> None:
        """What no block of the wave has taken comes to the first blocks of others, or of its own."""
        for label, (tokens, before, _) in self.come.items():
            want(ended(before))
            self.left.append((label, tokens))
        self.come, self.used = {}, set()
        self.wave += 1

    # Notes, along the paths inside a wave.

    def noted(self, memory: list[Note], before: Iterable[Note | None], top: int) -> tuple[Iterable[Note | None], int]:
        """Looks at notes: the last operations behind the block, and the number of the last that writes."""
        for note in memory:
            pred, seq, _, number, ripple, op = note
            writes = op in WRITES
            if not number or number in self.used or not (ripple == number if writes else ripple >= top):
                raise Perhaps
            self.used.add(number)
            for old in before:
                if pred != "." if old is None else not follows(old, pred, number, seq):
                    raise Perhaps
            top = max(top, number) if writes else top
            before = (note,)
        return before, top

    def fit(self) -> None:
        """Looks whether a draft can get notes."""
        at = {b.label: b for b in self.blocks}
        for b in self.blocks:
            b.targets = [at[label] for label in b.labels[1 if b.kind in ("if", "send") else 0:]]
        self.first = {b: b.first for b in self.blocks}
        Fit(self)

    # What draft_check.py would say.

    def at_exit(self, b: Any, rule: str, message: str, mend: str, check: str) -> None:
        raise Perhaps

    def at_instr(self, it: Any, rule: str, message: str, mend: str, check: str) -> None:
        raise Perhaps

    def add(self, line: int, column: int, rule: str, message: str, mend: str, check: str, /, **about: int | str) -> None:
        raise Perhaps


def follows(old: Note, pred: str, number: int, seq: str) -> bool:
    """Whether one of two operations names the other, and neither a third."""
    _, was, named, least, _, _ = old
    return number > least and named in ("?", seq) and pred in ("?", was) and not pred == named == "?"


def holds(lines: list[str], draft: bool) -> bool:
    """Whether one pass finds nothing."""
    try:
        Surely("\n".join(lines), draft)
    except (Perhaps, KeyError, IndexError, StopIteration):
        return False
    return True


def surely(lines: list[str], draft: bool) -> bool:
    """Whether the text of these lines is surely right, as it stands or in the program's layout."""
    if holds(lines, draft):
        return True
    made = printed(lines)
    return made != (lines if lines and lines[-1] else lines[:-1]) and holds(made, draft)
