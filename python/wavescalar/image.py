"""An image as data: waves, blocks, instructions, by number. All is immutable and compares by what it holds.

Instructions, blocks, waves and arrays are numbered from 1 in listing order; ports and pads from 0.
"""

from __future__ import annotations

from collections.abc import Iterator
from dataclasses import dataclass
from functools import cached_property
from typing import Literal, Union

from wavescalar.isa import KINDS

Link = Union[int, Literal[".", "?"]]  # a sequence number; none; one that depends on the path
Going = Literal["go", "if", "send", "stop"]


@dataclass(frozen=True)
class Port:
    """A destination: port `number`, from 0, of instruction `instruction`, from 1."""

    instruction: int
    number: int


@dataclass(frozen=True)
class Note:
    """A memory operation's note `<pred, seq, succ>.ripple`; numbers count within a wave, from 1."""

    pred: Link
    seq: int
    succ: Link
    ripple: int

    def __str__(self) -> str:
        return f"<{self.pred}, {self.seq}, {self.succ}>.{self.ripple}"


# The note of a draft, which `link` makes anew.
DRAFT = Note("?", 0, "?", 0)


@dataclass(frozen=True)
class Instruction:
    """An instruction.

    op: its word, as `add` or `load`.
    argument: the number behind the word: a value below 2^64, a pad, an array's number, a port of the outside.
    note: of a memory operation.
    lists: its lists of destinations: none, one, or the two of a steer (selector not 0, selector 0).
    name: in version 2. It counts when instructions are compared; `unnamed` takes it out of an image.
    """

    op: str
    argument: int | None = None
    note: Note | None = None
    lists: tuple[tuple[Port, ...], ...] = ()
    name: str | None = None


@dataclass(frozen=True)
class Exit:
    """What comes behind a block: `targets` are numbers of blocks, `selector` that of an instruction of the block."""

    kind: Going
    selector: int | None = None
    targets: tuple[int, ...] = ()


@dataclass(frozen=True)
class Block:
    """A block; `pads` are its pads in rising order of their numbers, each with its destinations."""

    instructions: tuple[Instruction, ...]
    exit: Exit
    pads: tuple[tuple[int, tuple[Port, ...]], ...] = ()
    name: str | None = None


@dataclass(frozen=True)
class Wave:
    """A wave: a piece of the program without a loop, entered at its first block."""

    blocks: tuple[Block, ...]


@dataclass(frozen=True)
class Array:
    """An array of `length` cells, each a word of 64 bits; hidden where it has no name."""

    name: str | None
    length: int


@dataclass(frozen=True)
class Image:
    """A whole program. `str(image)` is its text."""

    waves: tuple[Wave, ...]
    arrays: tuple[Array, ...] = ()
    version: int = 2

    @cached_property
    def blocks(self) -> tuple[Block, ...]:
        """All blocks; block B stands at place B - 1."""
        return tuple(block for wave in self.waves for block in wave.blocks)

    @cached_property
    def instructions(self) -> tuple[Instruction, ...]:
        """All instructions; instruction I stands at place I - 1."""
        return tuple(it for block in self.blocks for it in block.instructions)

    @property
    def is_draft(self) -> bool:
        """Whether an operation has the note of a draft, so that `link` has to come first."""
        return any(it.note == DRAFT for it in self.instructions)

    def number_of(self, name: str) -> int:
        """The number of the instruction with this name; KeyError where there is none."""
        for number, it in enumerate(self.instructions, 1):
            if it.name == name:
                return number
        raise KeyError(name)

    def __str__(self) -> str:
        return "".join(f"{line}\n" for line in lines_of(self))


def label(number: int, name: str | None, version: int) -> str:
    """What stands for an item in a text of this version."""
    return name if name and version == 2 else str(number)


def lines_of(image: Image) -> Iterator[str]:
    """The lines of an image's text, in the printed form of the program; in version 2 with its names."""
    version = image.version
    instrs = [label(k, it.name, version) for k, it in enumerate(image.instructions, 1)]
    blocks = [label(k, it.name, version) for k, it in enumerate(image.blocks, 1)]

    def listed(ports: tuple[Port, ...]) -> str:
        return "".join(f" {instrs[port.instruction - 1]}.{port.number}" for port in ports)

    def told(number: int, it: Instruction) -> str:
        words = [f"{instrs[number - 1]}: {it.op}"]
        words += [str(it.argument)] if it.argument is not None else []
        words += [str(it.note)] if it.note is not None else []
        lists = " |".join(listed(ports) for ports in it.lists)
        return " ".join(words) + (f" ->{lists}" if KINDS[it.op].lists else "")

    yield f"wavescalar {version}"
    for array in image.arrays:
        yield f"array {array.name} {array.length}" if array.name else f"hidden {array.length}"
    at_block = at = 0
    for number, wave in enumerate(image.waves, 1):
        yield f"wave {number}"
        for block in wave.blocks:
            at_block += 1
            yield f"block {blocks[at_block - 1]}"
            for pad, ports in block.pads:
                yield f"pad {pad}{listed(ports)}"
            for it in block.instructions:
                at += 1
                yield told(at, it)
            end = block.exit
            picks = [instrs[end.selector - 1]] if end.selector is not None else []
            yield " ".join([end.kind, *picks, *(blocks[target - 1] for target in end.targets)])
    yield "end"


def unnamed(image: Image, version: int = 1) -> Image:
    """The same image without names, in this version."""
    def bare(it: Instruction) -> Instruction:
        return Instruction(it.op, it.argument, it.note, it.lists)

    waves = tuple(
        Wave(tuple(Block(tuple(map(bare, block.instructions)), block.exit, block.pads) for block in wave.blocks))
        for wave in image.waves
    )
    return Image(waves, image.arrays, version)
