"""C's arithmetic on the machine's words, which are unsigned and of 64 bits.

Operands are clean words of `width` bits where nothing else is said (widths.py). A result is a word whose low `width`
bits count, clean or extended where that is said. Sequences with signs and bits are those of Warren, Hacker's Delight
(2nd edition), chapters 2, 5 and 7.
"""

from __future__ import annotations

from collections.abc import Callable

from wavescalar.c.flow import Code, Operand

ALL = (1 << 64) - 1


def top(width: int) -> int:
    """The sign bit."""
    return 1 << (width - 1)


def mask(width: int) -> int:
    """The greatest number of so many bits."""
    return (1 << width) - 1


def clean(code: Code, x: Operand, width: int) -> Operand:
    """Clears the bits above."""
    return code.alu("and", x, mask(width))


def invert(code: Code, x: Operand) -> Operand:
    """1 for 0, and 0 for 1."""
    return code.alu("xor", x, 1)


def extended(code: Code, x: Operand, width: int) -> Operand:
    """The word of 64 bits with the same signed value."""
    if width == 64:
        return x
    return code.alu("sub", code.alu("xor", x, top(width)), top(width))


def extended_constant(value: int, width: int) -> int:
    """The same of a number."""
    return (value ^ top(width)) - top(width) & ALL


def compare(code: Code, predicate: str, x: Operand, y: Operand, width: int) -> Operand:
    """An `icmp`; a clean 0 or 1."""
    if predicate in ("eq", "ne"):
        return code.alu(predicate, x, y)
    if predicate[0] == "u":
        return code.alu(predicate[1:], x, y)
    sign = top(width)
    if (predicate, y) in (("slt", 0), ("sle", mask(width))):
        return code.alu("ge", x, sign)
    if (predicate, y) in (("sge", 0), ("sgt", mask(width))):
        return code.alu("lt", x, sign)
    return code.alu(predicate[1:], code.alu("xor", x, sign), code.alu("xor", y, sign))


def compare_extended(code: Code, predicate: str, x: Operand, y: Operand, width: int) -> Operand:
    """The same of extended words, which are in the same order without signs too. The difference of two of fewer than 64
    bits fits a word: its sign tells which is less."""
    if predicate[0] != "s" or width == 64 or isinstance(x, int) or isinstance(y, int):
        return compare(code, predicate, x, y, 64)
    less, other = (x, y) if predicate in ("slt", "sge") else (y, x)
    return code.alu("ge" if predicate in ("slt", "sgt") else "lt", code.alu("sub", less, other), top(64))


def shift_right(code: Code, x: Operand, distance: Operand, width: int) -> Operand:
    """An `ashr`; extended. The sign is moved out of the way, and taken off again behind the shift."""
    moved = code.alu("shr", code.alu("xor", x, top(width)), distance)
    return code.alu("sub", moved, code.alu("shr", top(width), distance))


def _parted(code: Code, x: Operand) -> tuple[Operand, Operand]:
    """The sign of an extended word as 0 or all ones, and its absolute value."""
    sign = code.alu("sub", 0, code.alu("shr", x, 63))
    return sign, code.alu("sub", code.alu("xor", x, sign), sign)


def divide(code: Code, op: str, x: Operand, y: Operand) -> Operand:
    """An `sdiv` or `srem` of extended words; extended."""
    sign, left = _parted(code, x)
    other, right = _parted(code, y)
    if op == "sdiv":
        sign = code.alu("xor", sign, other)
    result = code.alu("div" if op == "sdiv" else "rem", left, right)
    return code.alu("sub", code.alu("xor", result, sign), sign)


def absolute(code: Code, x: Operand, width: int) -> Operand:
    """`llvm.abs`; clean."""
    return clean(code, _parted(code, extended(code, x, width))[1], width)


def count(code: Code, x: Operand, width: int) -> Operand:
    """`llvm.ctpop`; clean."""
    def under(pattern: int) -> int:
        return pattern & mask(max(width, 8))

    alu = code.alu
    x = alu("sub", x, alu("and", alu("shr", x, 1), under(0x5555555555555555)))
    x = alu("add", alu("and", x, under(0x3333333333333333)), alu("and", alu("shr", x, 2), under(0x3333333333333333)))
    x = alu("and", alu("add", x, alu("shr", x, 4)), under(0x0F0F0F0F0F0F0F0F))
    return alu("shr", alu("mul", x, 0x0101010101010101), 56) if width > 8 else x


def leading(code: Code, x: Operand, width: int) -> Operand:
    """`llvm.ctlz`; clean."""
    step = 1
    while step < width:
        x = code.alu("or", x, code.alu("shr", x, step))
        step *= 2
    return code.alu("sub", width, count(code, x, width))


def trailing(code: Code, x: Operand, width: int) -> Operand:
    """`llvm.cttz`; clean."""
    below = code.alu("and", code.alu("xor", x, ALL), code.alu("sub", x, 1))
    return count(code, clean(code, below, width), width)


def _swapped(code: Code, x: Operand, width: int, smallest: int) -> Operand:
    """Reverses groups of `smallest` bits, by halves of ever larger pieces."""
    step = smallest
    while step < width:
        piece = mask(step)
        low = sum(piece << at for at in range(0, width, 2 * step))
        left = code.alu("shl", code.alu("and", x, low), step)
        x = code.alu("or", left, code.alu("and", code.alu("shr", x, step), low))
        step *= 2
    return x


def reverse_bytes(code: Code, x: Operand, width: int) -> Operand:
    """`llvm.bswap` of 16, 32 or 64 bits; clean."""
    return _swapped(code, x, width, 8)


def reverse_bits(code: Code, x: Operand, width: int) -> Operand:
    """`llvm.bitreverse` of 8 to 64 bits, a power of two; clean."""
    return _swapped(code, x, width, 1)


def funnel(code: Code, x: Operand, y: Operand, distance: Operand, width: int, left: bool) -> Operand:
    """`llvm.fshl` or `llvm.fshr` of a width that is a power of two: of x above y, the upper or the lower half."""
    alu = code.alu
    by = alu("and", distance, width - 1)
    if isinstance(by, int):
        by = by if left else width - by  # how far x goes up
        if by in (0, width):
            return x if by == 0 else y
        return alu("or", alu("shl", x, by), alu("shr", y, width - by))
    back = alu("sub", width - 1, by)
    if left:
        return alu("or", alu("shl", x, by), alu("shr", alu("shr", y, 1), back))
    return alu("or", alu("shl", alu("shl", x, 1), back), alu("shr", y, by))


def overflowing(code: Code, op: str, x: Operand, y: Operand, width: int) -> tuple[Operand, Operand]:
    """The result, clean, and 1 where it doesn't fit, of `sadd`, `umul` and so on."""
    alu, kind = code.alu, op[1:]
    if op[0] == "u":
        return _overflowing_unsigned(code, kind, x, y, width)
    if width < 64 and (kind != "mul" or width <= 32):
        wide = alu(kind, extended(code, x, width), extended(code, y, width))
        result = clean(code, wide, width)
        return result, alu("ne", extended(code, result, width), wide)
    if kind == "mul":
        return _overflowing_product(code, extended(code, x, width), extended(code, y, width), width)
    result = alu(kind, x, y)
    differs = alu("xor", x, y) if kind == "sub" else alu("xor", alu("xor", x, y), ALL)
    return result, alu("shr", alu("and", differs, alu("xor", x, result)), 63)


def _overflowing_unsigned(code: Code, kind: str, x: Operand, y: Operand, width: int) -> tuple[Operand, Operand]:
    alu = code.alu
    whole = alu(kind, x, y)
    result = clean(code, whole, width)
    if kind == "add":
        return result, alu("lt", result, x)
    if kind == "sub":
        return result, alu("lt", x, y)
    if width <= 32:
        return result, alu("gt", whole, mask(width))
    lost = alu("or", alu("ne", alu("div", whole, x), y), alu("ne", result, whole))
    return result, alu("and", alu("ne", x, 0), lost)


def _overflowing_product(code: Code, x: Operand, y: Operand, width: int) -> tuple[Operand, Operand]:
    """Of extended words: the product of their absolute values is compared with the greatest that fits."""
    alu = code.alu
    (one, left), (other, right) = _parted(code, x), _parted(code, y)
    sign, whole = alu("xor", one, other), alu("mul", left, right)
    lost = alu("and", alu("ne", right, 0), alu("ne", alu("div", whole, right), left))
    over = alu("or", lost, alu("gt", whole, alu("sub", top(width) - 1, sign)))
    return clean(code, alu("sub", alu("xor", whole, sign), sign), width), over


def saturating(code: Code, op: str, x: Operand, y: Operand, width: int) -> Operand | None:
    """`llvm.uadd.sat`, `usub`, `sadd`, `ssub`; clean. None for another."""
    found = overflowing(code, op, x, y, width) if op in ("uadd", "usub", "sadd", "ssub") else None
    if found is None:
        return None
    result, over = found
    if op[0] == "u":
        return code.choose(over, mask(width) if op == "uadd" else 0, result)
    limit = code.alu("add", top(width) - 1, code.alu("shr", x, width - 1))  # the least one where x is negative
    return code.choose(over, limit, result)


CHOICES: dict[str, str] = {"umin": "ult", "umax": "ugt", "smin": "slt", "smax": "sgt"}


def extreme(code: Code, op: str, x: Operand, y: Operand, width: int, is_extended: bool = False) -> Operand:
    """`llvm.umin`, `umax`, `smin` or `smax`, of clean words or of extended ones: one of the words."""
    compared = compare_extended if is_extended else compare
    return code.choose(compared(code, CHOICES[op], x, y, width), x, y)


UNARY: dict[str, Callable[[Code, Operand, int], Operand]] = {
    "abs": absolute, "ctpop": count, "ctlz": leading, "cttz": trailing, "bswap": reverse_bytes,
    "bitreverse": reverse_bits,
}
