"""The instructions of the machine and the limits of its assembly (docs/ASSEMBLY.md): the one table of both in Python.

Reader, builder, machine, timing model, linter and the editor of wsc-serve take their words, counts and meanings from
here, and `repo.editors` puts the words into the files of editors/. Two models that others are compared with have tables
of their own, on purpose: `viewer/grid_model.py` and that of the builder's tests.
"""

from __future__ import annotations

from collections.abc import Callable
from dataclasses import dataclass
from typing import Literal, Optional

# What the number behind an instruction's word is: a value, a pad, an array, a port of the outside.
Argument = Literal["word", "pad", "array", "port"]

WORDS = 1 << 64  # a value is a whole number below this
NOTES = 1 << 32  # sequence and ripple numbers are below this


@dataclass(frozen=True)
class Operator:
    """An operation of two operands: its sign in a job, and what it makes of them, of which the low 64 bits count."""

    sign: str
    does: Callable[[int, int], int]


OPERATORS: dict[str, Operator] = {
    "add": Operator("+", lambda a, b: a + b),
    "sub": Operator("-", lambda a, b: a - b),
    "mul": Operator("*", lambda a, b: a * b),
    "div": Operator("/", lambda a, b: a // b if b else WORDS - 1),
    "rem": Operator("%", lambda a, b: a % b if b else a),
    "and": Operator("&", lambda a, b: a & b),
    "or": Operator("|", lambda a, b: a | b),
    "xor": Operator("^", lambda a, b: a ^ b),
    "shl": Operator("<<", lambda a, b: a << (b % 64)),
    "shr": Operator(">>", lambda a, b: a >> (b % 64)),
    "eq": Operator("==", lambda a, b: int(a == b)),
    "ne": Operator("!=", lambda a, b: int(a != b)),
    "lt": Operator("<", lambda a, b: int(a < b)),
    "le": Operator("<=", lambda a, b: int(a <= b)),
    "gt": Operator(">", lambda a, b: int(a > b)),
    "ge": Operator(">=", lambda a, b: int(a >= b)),
}
ALU = tuple(OPERATORS)


def applied(op: str, a: int, b: int) -> int:
    """What an operation of two operands gives, as a word."""
    return OPERATORS[op].does(a, b) % WORDS


@dataclass(frozen=True)
class Kind:
    """What an instruction has: `ports`, a count; `lists`, how many lists of destinations; its argument; a note."""

    ports: int
    lists: int
    argument: Optional[Argument] = None
    memory: bool = False


KINDS: dict[str, Kind] = {
    **{op: Kind(2, 1) for op in ALU},
    "const": Kind(1, 1, "word"),
    "merge": Kind(1, 1),
    "advance": Kind(1, 1),
    "steer": Kind(2, 2),
    "phi": Kind(3, 1),
    "send": Kind(2, 0, "pad"),
    "load": Kind(1, 1, "array", True),
    "store": Kind(2, 0, "array", True),
    "in": Kind(1, 1, None, True),
    "out": Kind(1, 0, None, True),
    "give": Kind(1, 1, "port", True),
    "take": Kind(1, 0, "port", True),
    "nop": Kind(1, 0, None, True),
    "halt": Kind(1, 0, None, True),
}
# The other words of an assembly's lines, those of a trace, and those of a job.
HEADS = ("wavescalar", "array", "hidden", "wave", "block", "pad", "end")
EXITS = ("go", "if", "send", "stop")
EVENTS = ("match", "issue")
DECLARING = ("proc", "array", "var")
BRANCHING = ("if", "else", "while")
DOING = ("print", "read", "give", "take", "return")
RESERVED = (*DECLARING, *BRANCHING, *DOING)


@dataclass(frozen=True)
class Limits:
    """The greatest counts in a text of one version."""

    instructions: int
    blocks: int
    waves: int
    landings: int
    arrays: int = 256
    length: int = 65_536  # cells in one array
    cells: int = 2_097_152  # cells in all arrays
    destinations: int = 8  # in one list
    pads: int = 16  # their numbers are below this
    ports: int = 7  # of `give` and `take`, from 1
    name: int = 64  # bytes


LIMITS: dict[int, Limits] = {
    1: Limits(2_097_152, 65_536, 65_536, 1_024),
    2: Limits(4_194_304, 131_072, 131_072, 2_048),
}
