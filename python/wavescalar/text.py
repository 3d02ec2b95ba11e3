"""Reads and prints assembly, its input section and traces.

`read` refuses the first line that `wsc check` refuses for `version`, `line`, `number`, `limit` or `name`, with the same
answer; `findings` tells all of them. The rules on shape, tokens and notes are for `wsc check`.
"""

from __future__ import annotations

from dataclasses import dataclass
from typing import cast

from wavescalar import reader
from wavescalar.faults import Refused
from wavescalar.image import Array, Block, Exit, Going, Image, Instruction, Link, Note, Port, Wave
from wavescalar.isa import KINDS, WORDS
from wavescalar.reader import Finding, Text, lexemes_of, lines_of, sections_of


@dataclass(frozen=True)
class Reading:
    """An image with the lines, from 1, where its items stand in the text; item K stands at place K - 1."""

    image: Image
    instruction_lines: tuple[int, ...]
    block_lines: tuple[int, ...]


def sections(text: str) -> tuple[str, str | None, str | None]:
    """The assembly, what stands behind `%input`, and what stands behind `%trace`."""
    lines, found = text.split("\n"), list[str]()
    for begin, end in sections_of(lines_of(text)):
        found.append("\n".join([*lines[begin:end], ""] if end < len(lines) else lines[begin:]))
    own, given, events = [*found, None, None][:3]
    return own or "", given, events


def input_of(text: str) -> tuple[int, ...]:
    """The words of a text's input section; ValueError where an item is none."""
    words = tuple(int(item) for item in (sections(text)[1] or "").split())
    if any(not 0 <= word < WORDS for word in words):
        raise ValueError("a word is a whole number below 2^64")
    return words


def _scanned(text: str) -> Text:
    lines = lines_of(text)
    _, end = next(sections_of(lines))
    # what stands behind the last line feed is a line: where something lacks, it stands for the text's end
    return Text(lines[:end], end + (end < len(lines)))


def findings(text: str) -> list[Finding]:
    """All faulty lines of an assembly, by line and column, each with a mend."""
    return _scanned(text).faults


def _ports(slots: list[reader.Slot]) -> tuple[Port, ...]:
    return tuple(Port(it.number, port) for it, port in slots)


def _instruction(it: reader.Instr) -> Instruction:
    note = Note(*cast(tuple[Link, int, Link, int], it.note)) if it.note else None
    return Instruction(it.op, it.arg, note, tuple(map(_ports, it.lists[: KINDS[it.op].lists])), it.name)


def _block(block: reader.Block) -> Block:
    leads = Exit(cast(Going, block.kind), block.source.number if block.source else None,
                 tuple(target.number for target in block.targets))
    pads = tuple((number, _ports(pad.slots)) for number, pad in block.pads.items())
    return Block(tuple(map(_instruction, block.instrs)), leads, pads, block.name)


def reading(text: str) -> Reading:
    """As `read`, with the lines where instructions and blocks stand."""
    found = _scanned(text)
    if fault := found.first():
        line = found.lines[fault.line - 1] if fault.line <= len(found.lines) else None
        meant = next((it for it in found.instrs if it.line == fault.line), None) if fault.seen == 2 else None
        raise Refused(fault.check, fault.rule, (), fault.line, None, line, meant.number if meant else None,
                      meant.name if meant else None)
    waves: list[list[Block]] = [[] for _ in range(found.waves)]
    for block in found.blocks:
        waves[block.wave - 1].append(_block(block))
    image = Image(tuple(Wave(tuple(blocks)) for blocks in waves), tuple(Array(*array) for array in found.arrays),
                  found.version)
    return Reading(image, tuple(it.line for it in found.instrs), tuple(block.line for block in found.blocks))


def read(text: str) -> Image:
    """The image of an assembly; an input section and a trace are left aside.

    Raises Refused, with line and rule, where `wsc check` names a line.
    """
    return reading(text).image


def print(image: Image) -> str:  # as the library's users call it: wavescalar.print(image)
    """The text of an image: that of `str(image)`."""
    return str(image)


__all__ = ["Reading", "findings", "input_of", "lexemes_of", "print", "read", "reading", "sections"]
