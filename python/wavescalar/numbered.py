"""The text that `wsc compile`, `wsc trace` or a hand writes, for the tools: assembly, `%input`, `%trace`. It is read by
`reader`; here instructions and blocks go by their numbers.

Every text is taken that `wsc check` calls sound. Of a faulty one the first line that can't be read is named, and no more.
"""

from __future__ import annotations

import re
from typing import Any

from wavescalar import reader
from wavescalar.faults import Fault
from wavescalar.isa import KINDS
from wavescalar.reader import Text, lines_of, sections_of

LEXEME = re.compile(r"->|[0-9A-Za-z_]+|[:|.,<>?]")
# A destination: an instruction, by its number, and a port.
Dest = tuple[int, int]
PORTS = {name: kind.ports for name, kind in KINDS.items()}


class Instr:
    """An instruction: its operation, its argument (a number or None), its note and its two lists."""

    def __init__(self, it: reader.Instr):
        self.op, self.arg, self.note, self.block, self.line = it.op, it.arg, it.note, it.block.number, it.line
        self.lists = [numbered(slots) for slots in it.lists]
        self.name, self.ports = it.name, len(it.ports)


class Block:
    """A block: its wave, its pads (a list of destinations each), its instructions, its exit, its name."""

    def __init__(self, it: reader.Block):
        self.wave, self.line, self.name = it.wave, it.line, it.name
        self.pads = {number: numbered(pad.slots) for number, pad in it.pads.items()}
        self.instrs = [own.number for own in it.instrs]
        picks = [it.source.number] if it.source else []
        self.exit: tuple[Any, ...] = (it.kind, *picks, *(target.number for target in it.targets))


def numbered(slots: list[reader.Slot]) -> list[Dest]:
    """Ports of instructions, by number."""
    return [(it.number, port) for it, port in slots]


class Image:
    """All items by their numbers, from 1; `text` has the lines of the assembly."""

    def __init__(self) -> None:
        # what is numbered 0 is nothing
        self.arrays: list[Any] = [None]
        self.blocks: list[Any] = [None]
        self.instrs: list[Any] = [None]
        self.waves = 0
        self.text: list[str] = []
        self.input: list[int] = []
        self.trace: list[tuple[Any, ...]] | None = None

    def name_of(self, number: int) -> str:
        """An instruction as its text calls it."""
        return self.instrs[number].name or str(number)


def sections(text: str) -> list[Any]:
    """The lines of the text's parts, each with the number of its first line, or None for a part that isn't
    there: the job or assembly itself, the input section, and the trace."""
    lines = lines_of(text)
    parts: list[Any] = [(lines[begin:end], begin + 1) for begin, end in sections_of(lines)]
    return [*parts, None, None][:3]


def answered(text: str) -> str:
    """The first line of a text that is itself an answer of wsc, a refusal or a usage line; else nothing. So reads
    what stands behind the pipe of a call that failed."""
    return text.partition("\n")[0] if text.startswith(("refused ", "usage: ")) else ""


def kind_of(text: str) -> str:
    """`job`, `assembly`, or `trace` for an assembly with a trace: its first line with lexemes tells."""
    for line in lines_of(text):
        if words := LEXEME.findall(line.split("#")[0]):
            if words[0] != "wavescalar":
                return "job"
            return "trace" if sections(text)[2] else "assembly"
        if line.split("#")[0].strip():
            return "job"
    return "job"


def read(text: str) -> Image:
    """The image of an assembly, with its input and its trace (a list of events, or None)."""
    own, words_given, events = sections(text)
    scanned, image = Text(own[0]), Image()
    if fault := scanned.first():
        line = own[0][fault.line - 1] if fault.line <= len(own[0]) else ""
        told = f": {fault.message}" if fault.seen else f" can't be read: {line.strip()}"
        raise Fault(f"line {fault.line}{told}")
    image.text, image.waves = own[0], scanned.waves
    image.arrays += scanned.arrays
    image.blocks += map(Block, scanned.blocks)
    image.instrs += map(Instr, scanned.instrs)
    trace: list[tuple[Any, ...]] = []
    image.trace = None if events is None else trace
    for part in (words_given, events):
        for at, line in enumerate(part[0] if part else (), part[1] if part else 0):
            words = line.split() if part is words_given else LEXEME.findall(line.split("#")[0])
            try:
                if part is words_given:
                    image.input += map(int, words)
                elif words:
                    trace.append((words[0], *map(int, words[1:])))
            except ValueError as cause:
                raise Fault(f"line {at} can't be read: {line.strip()}") from cause
    return image
