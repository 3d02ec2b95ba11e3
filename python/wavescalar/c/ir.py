"""The part of LLVM's IR that the front end reads, as data: one function, its blocks, and the objects in memory.

Blocks and instructions are numbered from 0. A `getelementptr` is kept as a base, a constant number of bytes, and
indices with their strides in bytes, so that no type has to be looked at behind the reader.
"""

from __future__ import annotations

import operator
from collections.abc import Callable, Iterator, Sequence
from dataclasses import dataclass, field
from typing import Union

from wavescalar.c.faults import Place, Refusal


@dataclass(frozen=True)
class Type:
    """A type: `kind` is `int`, `ptr`, `void`, `struct`, or `other`; `width` of an `int` in bits; LLVM's own text."""

    kind: str
    width: int = 0
    text: str = ""

    @property
    def bytes(self) -> int:
        """How many bytes of memory an `int` or a `ptr` takes."""
        return 8 if self.kind == "ptr" else (self.width + 7) // 8


@dataclass(frozen=True)
class Local:
    """The result of an instruction, by its number."""

    number: int


@dataclass(frozen=True)
class Int:
    """A constant of `width` bits, from 0 to 2^width - 1."""

    value: int
    width: int


@dataclass(frozen=True)
class Address:
    """The address of a global object, and so many bytes."""

    object: str
    offset: int


@dataclass(frozen=True)
class Null:
    """The null pointer."""


@dataclass(frozen=True)
class Undefined:
    """A value that C doesn't define: any will do."""


@dataclass(frozen=True)
class Unread:
    """An operand that the reader has no form for; `reason` says what it is."""

    reason: str


@dataclass(frozen=True)
class Expression:
    """A number that LLVM leaves to be computed of addresses: its word, as `sub`, and its parts with their widths.

    predicate: of an `icmp`. A `select` has its three operands for parts.
    """

    op: str
    parts: tuple[Operand, ...]
    widths: tuple[int, ...]
    width: int
    predicate: str = ""


Operand = Union[Local, Int, Address, Null, Undefined, Unread, Expression]


def within(operand: Operand) -> Iterator[Operand]:
    """An operand, and those of which it is computed."""
    yield operand
    if isinstance(operand, Expression):
        for part in operand.parts:
            yield from within(part)


def _signed(value: int, width: int) -> int:
    return value - (1 << width) if value >> (width - 1) & 1 else value


COMPARES: dict[str, Callable[[int, int], bool]] = {
    "eq": operator.eq, "ne": operator.ne, "gt": operator.gt, "ge": operator.ge, "lt": operator.lt, "le": operator.le,
}
COMPUTES: dict[str, Callable[[int, int], int]] = {
    "add": operator.add, "sub": operator.sub, "mul": operator.mul, "and": operator.and_, "or": operator.or_,
    "xor": operator.xor, "shl": lambda x, by: x << by % 64, "lshr": lambda x, by: x >> by % 64,
    "udiv": lambda x, y: x // (y or 1), "urem": lambda x, y: x % (y or 1),
}


def computed(op: str, numbers: Sequence[int], widths: Sequence[int], width: int, predicate: str = "") -> int | None:
    """What an expression of numbers is, from 0 to 2^width - 1; None where its word isn't one that is known."""
    found: int | None = None
    if op in ("zext", "trunc", "ptrtoint"):
        found = numbers[0]
    elif op == "sext":
        found = _signed(numbers[0], widths[0])
    elif op == "ashr":
        found = _signed(numbers[0], width) >> numbers[1] % 64
    elif op in ("sdiv", "srem"):
        one, other = (_signed(number, width) for number in numbers)
        result = abs(one) // abs(other or 1) * (-1 if (one < 0) != (other < 0) else 1)
        found = result if op == "sdiv" else one - result * (other or 1)
    elif op == "icmp":
        own = [_signed(number, widths[0]) for number in numbers] if predicate[0] == "s" else numbers
        found = int(COMPARES[predicate[-2:]](*own))
    elif op == "select":
        found = numbers[1] if numbers[0] else numbers[2]
    elif op in COMPUTES:
        found = COMPUTES[op](*numbers)
    return None if found is None else found % (1 << width)


@dataclass(frozen=True)
class Element:
    """An address: `base`, `offset` bytes, and for each pair an index times a stride in bytes."""

    base: Operand
    offset: int
    indices: tuple[tuple[Operand, int], ...]


@dataclass(eq=False)
class Instr:
    """An instruction.

    op: its word in LLVM, as `add`, `load`, `getelementptr`.
    operands: in LLVM's order; of a call the arguments; of a `phi` the values of `blocks`.
    type: that of the result.
    types: those of the operands.
    predicate: of an `icmp`, as `slt`.
    flags: `nuw`, `nsw`, `exact`.
    callee: of a call, the name of the function; None where it isn't known.
    element: of a `getelementptr`.
    blocks: where a branch goes, the first where its condition holds; of a `phi`, where each value comes from.
    size: of an `alloca`, in bytes; of an `extractvalue`, which part it takes.
    """

    number: int
    op: str
    type: Type
    operands: tuple[Operand, ...]
    types: tuple[Type, ...]
    place: Place
    text: str
    predicate: str = ""
    flags: frozenset[str] = frozenset()
    callee: str | None = None
    element: Element | None = None
    blocks: tuple[int, ...] = ()
    size: int = 0
    name: str = ""

    @property
    def widths(self) -> tuple[int, ...]:
        """The widths of the operands, in bits; 64 for pointers."""
        return tuple(own.width for own in self.types)

    def refused(self, reason: str) -> Refusal:
        """That this instruction can't be compiled."""
        return Refusal(reason, self.place, self.text)


@dataclass(eq=False)
class IrBlock:
    """A block: its instructions, the last of which is its terminator."""

    number: int
    name: str
    instrs: list[Instr] = field(default_factory=list)

    @property
    def targets(self) -> tuple[int, ...]:
        """The blocks to which it goes."""
        last = self.instrs[-1]
        return last.blocks if last.op in ("br", "switch") else ()


@dataclass(frozen=True)
class Datum:
    """What lies at `offset` of an object at the start, in `size` bytes: a number, one that is computed of addresses, an
    address, or what isn't read."""

    offset: int
    size: int
    value: Union[int, Expression, Address, Unread]


@dataclass(frozen=True)
class Global:
    """A global object of `size` bytes. `data` is what isn't zero at the start, by rising offset."""

    name: str
    size: int
    data: tuple[Datum, ...]
    place: Place


@dataclass
class Module:
    """`main`, into which all else was inlined that isn't recursive, and the global objects by name.

    blocks: those of main, behind them those of functions that are still called.
    functions: the other functions that have a body.
    entries, params: of main and of what is still called the number of its first block, and the numbers of parameters.
    """

    file: str
    blocks: list[IrBlock]
    globals: dict[str, Global]
    functions: frozenset[str] = frozenset()
    entries: dict[str, int] = field(default_factory=dict)
    params: dict[str, tuple[int, ...]] = field(default_factory=dict)

    @property
    def instrs(self) -> list[Instr]:
        """All instructions; instruction k stands at place k."""
        return [it for block in self.blocks for it in block.instrs]

    def number_again(self, same: dict[int, Operand]) -> None:
        """Numbers all instructions by their places. same: results that are another operand."""
        places = {it.number: place for place, it in enumerate(self.instrs)}

        def of(operand: Operand) -> Operand:
            while isinstance(operand, Local) and operand.number in same:
                operand = same[operand.number]
            return Local(places[operand.number]) if isinstance(operand, Local) else operand

        for it in self.instrs:
            it.operands = tuple(map(of, it.operands))
            if it.element:
                indices = tuple((of(index), stride) for index, stride in it.element.indices)
                it.element = Element(of(it.element.base), it.element.offset, indices)
        for place, it in enumerate(self.instrs):
            it.number = place
