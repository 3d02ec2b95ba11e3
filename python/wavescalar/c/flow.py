"""The flow graph: what is left of a C program when every value is a word of 64 bits and every object an array.

It is in SSA form. Its operations are instructions of the machine (docs/ASSEMBLY.md), with values or constants for
operands; that constants need triggers, values steers, and loops waves is the work of `waves.py`.
"""

from __future__ import annotations

from collections.abc import Iterable, Iterator
from dataclasses import dataclass, field
from typing import Literal, Union

from wavescalar.c.faults import Place
from wavescalar.isa import WORDS, applied

Kind = str  # an instruction's word: one of ALU, or phi, load, store, in, out
EFFECTS = ("store", "in", "out")


class Var:
    """A value; `name` is that of C, where it has one."""

    __slots__ = ("name", "kept")

    def __init__(self, name: str = "") -> None:
        self.name = name

    def __repr__(self) -> str:
        return f"%{self.name or hex(id(self))}"


Operand = Union[Var, int]


@dataclass(eq=False)
class Op:
    """An operation; `array` is the number, from 0, of the array that a load or a store is of, `place` its line of C."""

    kind: Kind
    result: Var | None
    args: list[Operand]
    array: int | None = None
    place: Place | None = None


@dataclass(eq=False)
class Phi:
    """At the head of a block, the value that comes with the edge from each block."""

    result: Var
    args: dict["Block", Operand]


@dataclass(eq=False, repr=False)
class Block:
    """A block. `exit` is `go` to one block, `if` to the first of two where `selector` isn't 0, or `stop`."""

    name: str
    phis: list[Phi] = field(default_factory=list)
    ops: list[Op] = field(default_factory=list)
    exit: Literal["go", "if", "stop"] = "stop"
    selector: Operand = 0
    targets: list["Block"] = field(default_factory=list)

    def __repr__(self) -> str:
        return f"block {self.name}"

    def retarget(self, old: "Block", new: "Block") -> None:
        """Leads to `new` where it led to `old`."""
        self.targets = [new if target is old else target for target in self.targets]


@dataclass(eq=False)
class ArraySpec:
    """An array of the machine; hidden where it has no name."""

    name: str
    cells: int


@dataclass(eq=False)
class Graph:
    """A flow graph; the first block is the entry, which no edge enters."""

    blocks: list[Block] = field(default_factory=list)
    arrays: list[ArraySpec] = field(default_factory=list)

    def ops(self) -> Iterator[Op]:
        """All operations."""
        return (op for block in self.blocks for op in block.ops)


# Operations that give their first operand where the second is this constant.
NEUTRAL = {"add": 0, "sub": 0, "or": 0, "xor": 0, "shl": 0, "shr": 0, "mul": 1, "div": 1, "and": WORDS - 1}
COMMUTE = ("add", "mul", "and", "or", "xor", "eq", "ne")


class Code:
    """Appends operations to a block; folds constants as the machine computes, and makes nothing twice in one block."""

    def __init__(self, block: Block, place: Place | None = None) -> None:
        """place: the line of C of what is appended, until it is said otherwise."""
        self.block, self.place = block, place
        self.made: dict[tuple[object, ...], Var] = {}

    def _append(self, kind: Kind, result: Var | None, args: list[Operand], array: int | None = None) -> None:
        self.block.ops.append(Op(kind, result, args, array, self.place))

    def _put(self, kind: Kind, args: Iterable[Operand], name: str = "") -> Var:
        own = list(args)
        key = (kind, *own)
        if key not in self.made:
            self.made[key] = Var(name)
            self._append(kind, self.made[key], own)
        return self.made[key]

    def alu(self, kind: Kind, one: Operand, other: Operand, name: str = "") -> Operand:
        """A result of two operands."""
        if isinstance(one, int) and isinstance(other, int):
            return applied(kind, one, other)
        if isinstance(one, int) and kind in COMMUTE:
            one, other = other, one
        if isinstance(other, int):
            if NEUTRAL.get(kind) == other:
                return one
            if other == 0 and kind in ("and", "mul"):
                return 0
        return self._put(kind, (one, other), name)

    def choose(self, selector: Operand, one: Operand, other: Operand, name: str = "") -> Operand:
        """`one` where the selector isn't 0, else `other`."""
        if isinstance(selector, int):
            return one if selector else other
        return one if one == other else self._put("phi", (one, other, selector), name)

    def load(self, array: int, index: Operand, name: str = "") -> Var:
        """The cell of an array."""
        made = Var(name)
        self._append("load", made, [index], array)
        return made

    def store(self, array: int, index: Operand, value: Operand) -> None:
        """Gives the cell of an array a value."""
        self._append("store", None, [index, value], array)

    def read(self, name: str = "") -> Var:
        """The next word of the input."""
        made = Var(name)
        self._append("in", made, [])
        return made

    def write(self, value: Operand) -> None:
        """Prints a word."""
        self._append("out", None, [value])

    # Exits.

    def go(self, target: Block) -> None:
        self.block.exit, self.block.targets = "go", [target]

    def branch(self, selector: Operand, yes: Block, no: Block) -> None:
        if isinstance(selector, int) or yes is no:
            self.go(yes if selector else no)
        else:
            self.block.exit, self.block.selector, self.block.targets = "if", selector, [yes, no]
