#!/usr/bin/env python3
"""Writes tests/changes.txt: one image with each note and each destination changed in turn, and what `check`
answers by the rules below, which look at all paths of the image.

    tests/changes.py         at the top of the repository

A rule that is broken is named at its first place: blocks of wrong shape first, then links and ripples from
operation to operation, then slots from block to block.
"""

import pathlib
import re
from collections.abc import Iterable, Iterator

FILE = pathlib.Path(__file__).resolve().parent / "changes.txt"
IMAGE = """wavescalar 1
array a 2
wave 1
block 1
pad 0 1.0
1: advance -> 2.0 3.0
2: in <., 1, ?>.1 -> 3.1
3: steer -> 4.0 5.0 8.0 | 7.0 8.0
if 2 2 3
block 2
4: const 0 -> 6.0
5: const 5 -> 6.1
6: store 1 <1, 2, 4>.2
go 4
block 3
7: nop <1, 3, 4>.1
go 4
block 4
8: merge -> 9.0 10.0 15.0
9: const 0 -> 11.0
10: const 1 -> 12.0
11: load 1 <?, 4, 5>.2 -> 13.0
12: load 1 <4, 5, 6>.2 -> 14.0
13: out <5, 6, 7>.6
14: out <6, 7, 8>.7
15: halt <7, 8, .>.8
stop
end"""
# Its blocks, and its paths in the order in which they are looked at.
BLOCKS = {1: (1, 2, 3), 2: (4, 5, 6), 3: (7,), 4: (8, 9, 10, 11, 12, 13, 14, 15)}
PATHS = ((1, 2, 4), (1, 3, 4))
LISTS = {(1, 3): 1, (1, 2): 0}
PORTS = {"steer": 2, "store": 2}
# An instruction and a port.
Dest = tuple[int, int]
WRITING = ("in", "out", "store", "halt")


def dest_of(word: str) -> Dest:
    """The instruction and the port of a destination."""
    instr, port = map(int, word.split("."))
    return instr, port


class Instr:
    """A line of the image."""

    def __init__(self, line: str) -> None:
        self.number = int(line.split(":")[0])
        self.op = line.split()[1]
        found = re.search(r"<(.*), (.*), (.*)>\.(\d+)", line)
        self.pred, seq, self.succ, ripple = found.groups() if found else ("", "", "", "")
        self.seq, self.ripple = int(seq or 0), int(ripple or 0)
        self.memory = found is not None
        lists = line.partition("->")[2].split("|")
        self.lists = [[dest_of(word) for word in text.split()] for text in lists]


def shapes(pads: list[Dest], instrs: dict[int, Instr]) -> Iterator[str]:
    """Blocks of wrong shape. The exits and the advance are as they have to be."""
    for block, numbers in BLOCKS.items():
        if block == 1 and (pads != [(1, 0)] * len(pads) or (3, 1) not in instrs[2].lists[0]):
            yield "shape 1"
        for i in numbers:
            for to, _ in sum(instrs[i].lists, []):
                if to <= i and to != 1:
                    yield f"shape {block}"


def joined(one: Instr, next: Instr) -> bool:
    """Whether two operations link."""
    says = (one.succ, next.pred)
    return one.seq < next.seq and says in (
        (str(next.seq), "?"),
        (str(next.seq), str(one.seq)),
        ("?", str(one.seq)),
    )


def at_operation(op: Instr, instrs: dict[int, Instr]) -> Iterator[str]:
    """What an operation breaks behind those that may stand before it."""
    before = [
        [instrs[i] for b in path for i in BLOCKS[b] if i < op.number and instrs[i].memory]
        for path in PATHS
        if any(op.number in BLOCKS[b] for b in path)
    ]
    lasts = [ops[-1] for ops in before if ops]
    if op.seq == 0:
        yield f"link {op.number} {op.number}"
    if len(lasts) < len(before) and op.pred != ".":
        yield f"link 0 {op.number}"
    for last in sorted(lasts, key=lambda last: -last.seq):
        if not joined(last, op):
            yield f"link {last.number} {op.number}"
    writers = [w for ops in before for w in ops if w.op in WRITING]
    if op.op in WRITING:
        if op.ripple != op.seq:
            yield f"ripple {op.number} {op.number}"
    elif writers and op.ripple < max(w.seq for w in writers):
        yield f"ripple {op.number} {max(writers, key=lambda w: w.seq).number}"
    for other in instrs.values():
        if other.memory and other.number < op.number and other.seq == op.seq:
            yield f"link {other.number} {op.number}"


def orders(instrs: dict[int, Instr]) -> Iterator[str]:
    """What operations break."""
    for op in instrs.values():
        if op.memory:
            yield from at_operation(op, instrs)
    if instrs[15].succ != ".":
        yield "link 15 0"


class Taken(Exception):
    """A slot has a token already, or lacks one."""


def send(slots: set[Dest], dests: Iterable[Dest]) -> None:
    """Puts tokens into slots."""
    for i, p in dests:
        if (i, p) in slots:
            raise Taken(f"port {i} {p}")
        slots.add((i, p))


def passed(slots: set[Dest], block: int, instrs: dict[int, Instr]) -> None:
    """Fires the instructions of a block."""
    for i in BLOCKS[block]:
        for p in range(PORTS.get(instrs[i].op, 1)):
            if (i, p) not in slots:
                raise Taken(f"port {i} {p}")
            slots.remove((i, p))
        if instrs[i].op != "steer":
            send(slots, instrs[i].lists[0])


def slots_of(pads: list[Dest], instrs: dict[int, Instr]) -> str:
    """What is broken on the paths: all of the first one, and then the second one up to the join."""
    try:
        start: set[Dest] = set()
        joins: list[set[Dest]] = []
        send(start, pads)
        if start != {(1, 0)}:
            return f"port {min(start ^ {(1, 0)})[0]} 0"
        passed(start, 1, instrs)
        for path in PATHS:
            slots = set(start)
            send(slots, instrs[3].lists[LISTS[path[:2]]])
            passed(slots, path[1], instrs)
            joins.append(set(slots))
            if len(joins) == 2:
                return "pending 2 3" if joins[0] != joins[1] else ""
            passed(slots, path[2], instrs)
            if slots:
                (i, p) = min(slots)
                return f"port {i} {p}"
    except Taken as taken:
        return str(taken)
    return ""


def answer(text: str) -> str:
    """What the check of an image answers."""
    lines = text.split("\n")
    instrs = {i.number: i for i in map(Instr, filter(lambda line: re.match(r"\d+:", line), lines))}
    pads = Instr("0: pad -> " + lines[4].removeprefix("pad 0")).lists[0]
    for broken in (*shapes(pads, instrs), *orders(instrs), slots_of(pads, instrs)):
        if broken:
            return f"= 2\nrefused {broken}"
    return "= 0\nsound"


def with_notes() -> Iterator[str]:
    """The image with each part of each note changed."""
    for found in re.finditer(r"<(.*), (.*), (.*)>\.(\d+)", IMAGE):
        parts = found.groups()
        for place, others in enumerate(((".", "?", "1"), ("0", "9"), (".", "?", "9"), ("0", "9"))):
            for other in others:
                changed = [other if at == place else part for at, part in enumerate(parts)]
                if other != parts[place]:
                    note = "<{}, {}, {}>.{}".format(*changed)
                    yield IMAGE[: found.start()] + note + IMAGE[found.end() :]


def with_dests() -> Iterator[str]:
    """The image with each destination left out, and with each leading to another instruction."""
    for found in re.finditer(r" (\d+)\.(\d)(?=[ \n])", IMAGE):
        number = int(found.group(1))
        for other in ("", f" {number % 15 + 1}.0", f" {(number + 12) % 15 + 1}.0"):
            yield IMAGE[: found.start()] + other + IMAGE[found.end() :]


def main() -> None:
    rows = [f"> wsc check\n{text}\n{answer(text)}\n" for text in (IMAGE, *with_notes(), *with_dests())]
    head = "# An image with each note and each destination changed in turn, written by tests/changes.py.\n"
    FILE.write_text("\n".join([head, *rows]))


if __name__ == "__main__":
    main()
