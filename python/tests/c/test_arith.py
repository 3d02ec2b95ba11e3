"""The sequences of arith.py give what C's arithmetic gives, for all widths, at the edges and at random."""

from __future__ import annotations

import random
from collections.abc import Callable

import pytest
from wavescalar.c import arith
from wavescalar.c.flow import Block, Code, Operand, Var
from wavescalar.c.follow import value_of

WIDTHS = [1, 3, 8, 16, 31, 32, 33, 48, 63, 64]


def signed(x: int, width: int) -> int:
    """A word of so many bits with its sign."""
    return x - (1 << width) if x >> (width - 1) else x


def numbers(width: int) -> list[int]:
    """Edges and random numbers of a width."""
    r = random.Random(width)
    most = arith.mask(width)
    edges = {0, 1, most, most >> 1, most - (most >> 1), most - 1}
    return sorted(edges) + [r.getrandbits(width) for _ in range(6)]


def computed(make: Callable[[Code, list[Operand]], Operand], words: list[int]) -> int:
    """What the operations give that `make` appends for these words."""
    block = Block("test")
    inputs = [Var() for _ in words]
    result = make(Code(block), list(inputs))
    values: dict[Var, int] = dict(zip(inputs, words))

    def of(operand: Operand) -> int:
        return operand if isinstance(operand, int) else values[operand]

    for op in block.ops:
        assert op.result is not None
        values[op.result] = value_of(op, [of(arg) for arg in op.args])
    return of(result)


@pytest.mark.parametrize("width", WIDTHS)
@pytest.mark.parametrize("predicate", ["eq", "ne", "ult", "ule", "ugt", "uge", "slt", "sle", "sgt", "sge"])
def test_compare(predicate: str, width: int) -> None:
    meaning = {"eq": int.__eq__, "ne": int.__ne__, "lt": int.__lt__, "le": int.__le__, "gt": int.__gt__,
               "ge": int.__ge__}[predicate if len(predicate) == 2 else predicate[1:]]
    for x in numbers(width):
        for y in numbers(width):
            a, b = (signed(x, width), signed(y, width)) if predicate[0] == "s" else (x, y)
            wanted = int(meaning(a, b))
            assert computed(lambda c, w: arith.compare(c, predicate, w[0], w[1], width), [x, y]) == wanted
            assert computed(lambda c, w: arith.compare(c, predicate, w[0], y, width), [x]) == wanted
            words = [arith.extended_constant(number, width) for number in (x, y)]
            assert computed(lambda c, w: arith.compare_extended(c, predicate, w[0], w[1], width), words) == wanted
            assert computed(lambda c, w: arith.compare_extended(c, predicate, w[0], words[1], width), words[:1]) == wanted


@pytest.mark.parametrize("width", WIDTHS)
def test_signs(width: int) -> None:
    for x in numbers(width):
        a = signed(x, width)
        assert computed(lambda c, w: arith.extended(c, w[0], width), [x]) == a % (1 << 64)
        assert arith.extended_constant(x, width) == a % (1 << 64)
        for by in {0, width // 2, width - 1}:
            assert computed(lambda c, w: arith.shift_right(c, w[0], w[1], width), [x, by]) == (a >> by) % (1 << 64)
        for y in numbers(width):
            b = signed(y, width)
            if b == 0 or (b == -1 and a == -(1 << (width - 1))):
                continue
            quotient = abs(a) // abs(b) * (1 if (a < 0) == (b < 0) else -1)
            for op, wanted in (("sdiv", quotient), ("srem", a - quotient * b)):
                assert computed(lambda c, w: arith.divide(c, op, w[0], w[1]),
                                [a % (1 << 64), b % (1 << 64)]) == wanted % (1 << 64)


@pytest.mark.parametrize("width", [8, 16, 32, 64])
def test_bits(width: int) -> None:
    for x in numbers(width):
        text = f"{x:0{width}b}"
        wanted = {
            "ctpop": text.count("1"), "ctlz": len(text) - len(text.lstrip("0")),
            "cttz": len(text) - len(text.rstrip("0")), "bitreverse": int(text[::-1], 2),
            "bswap": int.from_bytes(x.to_bytes(width // 8, "little"), "big"),
            "abs": abs(signed(x, width)) % (1 << width),
        }
        for op, number in wanted.items():
            assert computed(lambda c, w: arith.UNARY[op](c, w[0], width), [x]) == number, op


@pytest.mark.parametrize("width", [8, 32, 64])
@pytest.mark.parametrize("left", [True, False])
def test_funnel(width: int, left: bool) -> None:
    for x in numbers(width):
        for y in numbers(width)[:4]:
            for by in (0, 1, width - 1, width, width + 3):
                turn, both = by % width, x << width | y
                wanted = (both << turn >> width if left else both >> turn) % (1 << width)
                for given in ([x, y, by], [x, y]):
                    got = computed(lambda c, w: arith.funnel(c, w[0], w[1], (*w, by)[2], width, left), given)
                    assert got % (1 << width) == wanted


def saturated(code: Code, op: str, words: list[Operand], width: int) -> Operand:
    """A saturating sum or difference, which there is."""
    made = arith.saturating(code, op, words[0], words[1], width)
    assert made is not None
    return made


@pytest.mark.parametrize("width", [8, 16, 32, 33, 64])
@pytest.mark.parametrize("op", ["uadd", "usub", "umul", "sadd", "ssub", "smul"])
def test_overflow(op: str, width: int) -> None:
    meaning = {"add": int.__add__, "sub": int.__sub__, "mul": int.__mul__}[op[1:]]
    for x in numbers(width):
        for y in numbers(width):
            a, b = (signed(x, width), signed(y, width)) if op[0] == "s" else (x, y)
            exact = meaning(a, b)
            low, high = (-(1 << width - 1), (1 << width - 1) - 1) if op[0] == "s" else (0, arith.mask(width))
            for part, wanted in enumerate((exact % (1 << width), int(not low <= exact <= high))):
                assert computed(lambda c, w: arith.overflowing(c, op, w[0], w[1], width)[part],
                                [x, y]) == wanted
            if "mul" not in op:
                assert computed(lambda c, w: saturated(c, op, w, width), [x, y]) == min(max(exact, low), high) % (1 << width)
