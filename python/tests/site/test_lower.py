"""Small modules with 64-bit memory whose bytes are known: what lower.py makes of each, what it refuses, and, in Node, what a module
that uses an instruction which is lowered gives when it is called.
"""

from __future__ import annotations

import json
import pathlib
import struct
import subprocess

import pytest

from repo.site.lower import LOADS, STORES, Unknown, lowered
from tests import asked
from tests.cases import each
from tests.scripts import node

HERE = pathlib.Path(__file__).resolve().parent
HEAD = b"\0asm\x01\0\0\0"
I32, I64, F32, F64 = 0x7F, 0x7E, 0x7D, 0x7C
# A type without parameters and results, one function of it, a memory of one page.
TYPES = bytes([1, 4, 1, 0x60, 0, 0])
FUNCTIONS = bytes([3, 2, 1, 0])
WIDE_MEMORY, MEMORY = bytes([5, 3, 1, 4, 1]), bytes([5, 3, 1, 0, 1])


def module(memory: bytes, code: list[int], groups: list[int] | None = None) -> bytes:
    """A module with one function of this code, whose locals are these groups."""
    body = bytes([*(groups or [0]), *code, 0x0B])
    part = bytes([1, len(body)]) + body
    return HEAD + TYPES + FUNCTIONS + memory + bytes([10, len(part)]) + part


# What is given, what comes of it, and the locals that are added.
Row = tuple[list[int], list[int], list[int] | None]
ROWS: list[tuple[str, Row]] = [
    ("load", ([0x42, 8, 0x29, 3, 0, 0x1A], [0x42, 8, 0xA7, 0x29, 3, 0, 0x1A], None)),
    ("store-constant", ([0x42, 8, 0x42, 7, 0x37, 3, 16], [0x42, 8, 0xA7, 0x42, 7, 0x37, 3, 16], None)),
    ("store-computed", ([0x42, 8, 0x42, 7, 0x50, 0x36, 2, 0],
                        [0x42, 8, 0x42, 7, 0x50, 0x21, 0, 0xA7, 0x20, 0, 0x36, 2, 0], [1, 1, 0x7F])),
    ("grow", ([0x42, 1, 0x40, 0, 0x1A], [0x42, 1, 0xA7, 0x40, 0, 0xAC, 0x1A], None)),
    ("size", ([0x3F, 0, 0x1A], [0x3F, 0, 0xAD, 0x1A], None)),
    ("fill", ([0x42, 8, 0x41, 0, 0x42, 9, 0xFC, 11, 0],
              [0x42, 8, 0x41, 0, 0x42, 9, 0x21, 0, 0x21, 1, 0xA7, 0x20, 1, 0x20, 0, 0xA7, 0xFC, 11, 0], [2, 1, 0x7E, 1, 0x7F])),
    ("copy", ([0x42, 8, 0x42, 1, 0x42, 9, 0xFC, 10, 0, 0],
              [0x42, 8, 0x42, 1, 0x42, 9, 0x21, 0, 0x21, 1, 0xA7, 0x20, 1, 0xA7, 0x20, 0, 0xA7, 0xFC, 10, 0, 0], [2, 1, 0x7E, 1, 0x7E])),
    ("call-through-the-table", ([0x42, 0, 0x11, 0, 0], [0x42, 0, 0xA7, 0x11, 0, 0], None)),
    ("block-and-branch", ([0x02, 0x40, 0x0C, 0, 0x0B], [0x02, 0x40, 0x0C, 0, 0x0B], None)),
]
# Instructions of vectors and of threads, a copy of a part of the data, and an offset beyond 32 bits.
REFUSED = [[0xFD, 12], [0xFE, 3, 0], [0xFC, 8, 0, 0], [0x42, 0, 0x28, 2, 0x80, 0x80, 0x80, 0x80, 0x10, 0x1A]]


@each("row", ROWS)
def test_bytes(row: Row) -> None:
    """The bytes that come of an instruction."""
    given, told, groups = row
    asked.want("lowered", lowered(module(WIDE_MEMORY, given)).hex(), module(MEMORY, told, groups).hex())


@pytest.mark.parametrize("code", REFUSED, ids=lambda code: bytes(code).hex())
def test_refused(code: list[int]) -> None:
    """What isn't lowered is refused."""
    with pytest.raises(Unknown):
        lowered(module(WIDE_MEMORY, code))


# Modules that are called. Each has memory of one page, at most three, in which these bytes stand from DATA_AT on; its function `f`
# gives 64 bits. Its table has two places, of which the second is a function that gives ANSWER.
DATA_AT, BYTES = 8, bytes(range(0x81, 0xA1))
ANSWER = 77
# What comes of what a load gives: 64 bits. 0xAD extends without sign, 0xBC and 0xBD take the bits of a float.
WHOLE: dict[int, list[int]] = {I32: [0xAD], I64: [], F32: [0xBC, 0xAD], F64: [0xBD]}
# For each load the type of its result, how many bytes it reads, and whether they have a sign.
LOADED = dict(zip(LOADS, [(I32, 4, False), (I64, 8, False), (F32, 4, False), (F64, 8, False), (I32, 1, True), (I32, 1, False),
                          (I32, 2, True), (I32, 2, False), (I64, 1, True), (I64, 1, False), (I64, 2, True), (I64, 2, False),
                          (I64, 4, True), (I64, 4, False)]))
STORED = dict(zip(STORES, [(I32, 4), (I64, 8), (F32, 4), (F64, 8), (I32, 1), (I32, 2), (I64, 1), (I64, 2), (I64, 4)]))
# Of each type the constant 1, or 1.5; a sum of it and itself; and its bits then.
ONE = {I32: [0x41, 1], I64: [0x42, 1], F32: [0x43, *struct.pack("<f", 1.5)], F64: [0x44, *struct.pack("<d", 1.5)]}
SUM = {I32: 0x6A, I64: 0x7C, F32: 0x92, F64: 0xA0}
BITS = {I32: (1, 2), I64: (1, 2), F32: (struct.unpack("<I", struct.pack("<f", 1.5))[0], struct.unpack("<I", struct.pack("<f", 3))[0]),
        F64: (struct.unpack("<Q", struct.pack("<d", 1.5))[0], struct.unpack("<Q", struct.pack("<d", 3))[0])}
OFFSET = 3
# 64 bits from a place on: i64.load, not aligned.
READ = [0x29, 0, 0]
# A code, the groups of its locals, and what it gives, as a number without sign.
Call = tuple[list[int], list[int], int]


def section(kind: int, data: bytes) -> bytes:
    """A section of less than 128 bytes, or of less than 16,384."""
    size = len(data)
    return bytes([kind, size] if size < 128 else [kind, size & 127 | 128, size >> 7]) + data


def called(code: list[int], groups: list[int]) -> bytes:
    """The module, whose first function is `f`."""
    bodies = [bytes([*groups, *code, 0x0B]), bytes([0, 0x42, ANSWER | 0x80, 0, 0x0B])]
    return HEAD + section(1, bytes([1, 0x60, 0, 1, I64])) + section(3, bytes([2, 0, 0])) + section(4, bytes([1, 0x70, 4, 2])) + \
        section(5, bytes([1, 5, 1, 3])) + section(7, bytes([1, 1]) + b"f" + bytes([0, 0])) + \
        section(9, bytes([1, 0, 0x42, 1, 0x0B, 1, 1])) + \
        section(10, bytes([2]) + b"".join(bytes([len(it)]) + it for it in bodies)) + \
        section(11, bytes([1, 0, 0x42, DATA_AT, 0x0B, len(BYTES)]) + BYTES)


def held(at: int, data: bytes) -> int:
    """The 64 bits from a place on, once these bytes were put to DATA_AT + OFFSET."""
    memory = bytearray(64)
    memory[DATA_AT : DATA_AT + len(BYTES)] = BYTES
    memory[DATA_AT + OFFSET : DATA_AT + OFFSET + len(data)] = data
    return int.from_bytes(memory[at : at + 8], "little")


def of_loads() -> list[tuple[str, Call]]:
    """Each load, at an offset."""
    made: list[tuple[str, Call]] = []
    for op, (kind, count, is_signed) in LOADED.items():
        value = int.from_bytes(BYTES[OFFSET : OFFSET + count], "little", signed=is_signed)
        # 32 bits are extended without sign
        value &= 2**32 - 1 if kind in (I32, F32) else 2**64 - 1
        made.append((f"load-{op:#x}", ([0x42, DATA_AT, op, 0, OFFSET, *WHOLE[kind]], [0], value)))
    return made


def of_stores() -> list[tuple[str, Call]]:
    """Each store: of a constant, of a local, of a sum, and of what is kept in a local too."""
    made: list[tuple[str, Call]] = []
    for op, (kind, count) in STORED.items():
        one, both = (bits.to_bytes(8, "little")[:count] for bits in BITS[kind])
        at, end = [0x42, DATA_AT], [op, 0, OFFSET, 0x42, DATA_AT + OFFSET, *READ]
        groups = [2, 1, I32, 1, kind]
        made += [(f"store-{op:#x}-constant", ([*at, *ONE[kind], *end], groups, held(DATA_AT + OFFSET, one))),
                 (f"store-{op:#x}-local", ([*ONE[kind], 0x21, 1, *at, 0x20, 1, *end], groups, held(DATA_AT + OFFSET, one))),
                 (f"store-{op:#x}-sum", ([*at, *ONE[kind], *ONE[kind], SUM[kind], *end], groups, held(DATA_AT + OFFSET, both))),
                 (f"store-{op:#x}-tee", ([*at, *ONE[kind], 0x22, 1, *end], groups, held(DATA_AT + OFFSET, one)))]
    return made


def of_memory() -> list[tuple[str, Call]]:
    """Size, growth, growth beyond the most, copies and fills; a call through the table."""
    far = DATA_AT + len(BYTES)
    return [
        ("size", ([0x3F, 0], [0], 1)),
        ("grows", ([0x42, 2, 0x40, 0], [0], 1)),
        ("has-grown", ([0x42, 2, 0x40, 0, 0x1A, 0x3F, 0], [0], 3)),
        ("cannot-grow", ([0x42, 3, 0x40, 0], [0], 2**64 - 1)),
        ("stays-as-it-was", ([0x42, 3, 0x40, 0, 0x1A, 0x3F, 0], [0], 1)),
        ("fill", ([0x42, DATA_AT + OFFSET, 0x41, 7, 0x42, 5, 0xFC, 11, 0, 0x42, DATA_AT + OFFSET, *READ], [0],
                  held(DATA_AT + OFFSET, b"\7" * 5))),
        ("copy", ([0x42, far, 0x42, DATA_AT, 0x42, 6, 0xFC, 10, 0, 0, 0x42, far, *READ], [0],
                  int.from_bytes(BYTES[:6], "little"))),
        ("copy-of-what-overlaps", ([0x42, DATA_AT + OFFSET, 0x42, DATA_AT, 0x42, 8, 0xFC, 10, 0, 0, 0x42, DATA_AT + OFFSET, *READ],
                                   [0], int.from_bytes(BYTES[:8], "little"))),
        ("call-through-the-table", ([0x42, 1, 0x11, 0, 0], [0], ANSWER)),
    ]


CALLS = [*of_loads(), *of_stores(), *of_memory()]


def test_called() -> None:
    """What each of these modules gives when Node calls it."""
    program = node()
    if not program:
        pytest.skip("no Node (Debian: nodejs)")
    given = json.dumps([lowered(called(code, groups)).hex() for _, (code, groups, _) in CALLS])
    ran = subprocess.run([program, str(HERE / "called.mjs")], input=given, capture_output=True, text=True, check=True)
    for (name, (_, _, wanted)), made in zip(CALLS, json.loads(ran.stdout), strict=True):
        asked.want(name, made, str(wanted))
    asked.say(f"{len(CALLS)} modules with an instruction that is lowered, called in Node")
