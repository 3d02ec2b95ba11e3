"""Takes integers of more than 64 bits apart: each becomes several of 64, the lowest first.

Such integers are `__int128`, and what clang reads and writes for bit fields that lie close together. A part's bits above
the integer's width are 0. Divisions are calls before (division.py).
"""

from __future__ import annotations

from dataclasses import replace

from wavescalar.c.ir import Element, Instr, Int, Local, Module, Null, Operand, Type, Undefined
from wavescalar.c.order import reverse_postorder

LONG = Type("int", 64)
BIT = Type("int", 1)
POINTER = Type("ptr", 64)
BITWISE = ("and", "or", "xor")
EXTREMES = {"smin": "sle", "smax": "sge", "umin": "ule", "umax": "uge"}  # whether the first one is taken
Parts = list[Operand]


def narrow(module: Module) -> None:
    """Replaces wide integers in a module. Raises Refusal where an operation of them can't be taken apart."""
    if any(_is_wide(own) for it in module.instrs for own in (it.type, *it.types)):
        _Narrow(module).rewrite()


def _is_wide(own: Type) -> bool:
    return own.kind == "int" and own.width > 64


def _number(value: int) -> Int:
    return Int(value % (1 << 64), 64)


def _drop_ways(phi: Instr, reached: set[int]) -> None:
    """Takes away what would come from blocks to which no run comes."""
    kept = [k for k, source in enumerate(phi.blocks) if source in reached]
    phi.operands, phi.types = tuple(phi.operands[k] for k in kept), tuple(phi.types[k] for k in kept)
    phi.blocks = tuple(phi.blocks[k] for k in kept)


class _Narrow:
    def __init__(self, module: Module) -> None:
        self.module = module
        self.parts: dict[int, Parts] = {}
        self.same: dict[int, Operand] = {}  # results that are another operand
        self.next = len(module.instrs)
        self.made: list[Instr] = []
        self.it = module.instrs[0]

    def rewrite(self) -> None:
        """Replaces what is wide, and numbers all instructions again."""
        blocks = self.module.blocks
        phis: list[tuple[Instr, list[Instr]]] = []
        order = reverse_postorder(0, lambda number: blocks[number].targets)
        reached = set(order)
        for number in order:
            self.made = []
            for it in blocks[number].instrs:
                self.it = it
                if it.op == "phi" and not reached.issuperset(it.blocks):
                    _drop_ways(it, reached)
                if it.op == "phi" and _is_wide(it.type):
                    self.parts[it.number] = [self._make("phi", (), ()) for _ in range(-(-it.type.width // 64))]
                    phis.append((it, self.made[-len(self.parts[it.number]):]))
                elif any(map(_is_wide, (it.type, *it.types))):
                    self._take_apart(it)
                else:
                    self.made.append(it)
            blocks[number].instrs = self.made
        for it, own in phis:
            ways = [self._of(operand, it.type.width) for operand in it.operands]
            for k, phi in enumerate(own):
                phi.operands, phi.types = tuple(way[k] for way in ways), (LONG,) * len(ways)
                phi.blocks = it.blocks
        self._renumber()

    def _renumber(self) -> None:
        """Blocks that no run comes to are emptied: what they use may be gone."""
        reached = set(reverse_postorder(0, lambda number: self.module.blocks[number].targets))
        for block in self.module.blocks:
            if block.number not in reached:
                block.instrs = block.instrs[-1:]
                block.instrs[0] = replace(block.instrs[0], op="unreachable", operands=(), types=(), blocks=())
        self.module.number_again(self.same)

    # Making instructions.

    def _make(self, op: str, operands: tuple[Operand, ...], types: tuple[Type, ...], own: Type = LONG,
              predicate: str = "", number: int | None = None) -> Local:
        if number is None:
            number, self.next = self.next, self.next + 1
        name = self.it.name
        self.made.append(Instr(number, op, own, operands, types, self.it.place, self.it.text, predicate, name=name))
        return Local(number)

    def _two(self, op: str, one: Operand, other: Operand) -> Operand:
        if isinstance(other, Int) and other.value == 0:
            return _number(0) if op in ("and", "mul") else one
        if op == "and" and other == _number(-1):
            return one
        return self._make(op, (one, other), (LONG, LONG))

    def _test(self, predicate: str, one: Operand, other: Operand) -> Operand:
        return self._make("icmp", (one, other), (LONG, LONG), BIT, predicate)

    def _both(self, op: str, one: Operand, other: Operand) -> Operand:
        return self._make(op, (one, other), (BIT, BIT), BIT)

    def _choose(self, condition: Operand, one: Operand, other: Operand) -> Operand:
        return one if one == other else self._make("select", (condition, one, other), (BIT, LONG, LONG))

    def _of(self, operand: Operand, width: int) -> Parts:
        """The parts of an operand."""
        count = -(-width // 64)
        if isinstance(operand, Local):
            return self.parts[operand.number]
        if isinstance(operand, Int):
            return [_number(operand.value >> 64 * k) for k in range(count)]
        if isinstance(operand, (Null, Undefined)):
            return [_number(0)] * count
        raise self._refused()

    def _masked(self, parts: Parts, width: int) -> Parts:
        """Clears the bits above."""
        if width % 64:
            parts[-1] = self._two("and", parts[-1], _number((1 << width % 64) - 1))
        return parts

    def _signed_top(self, top: Operand, width: int) -> Operand:
        """The highest part with the sign in all bits above."""
        if width % 64 == 0:
            return top
        by = _number(64 - width % 64)
        return self._two("ashr", self._two("shl", top, by), by)

    def _refused(self) -> Exception:
        width = max(own.width for own in (self.it.type, *self.it.types) if own.kind == "int")
        return self.it.refused(f"an integer of {width} bits")

    # Instructions.

    def _take_apart(self, it: Instr) -> None:
        if it.op in BITWISE:
            one, other = (self._of(operand, it.type.width) for operand in it.operands)
            self.parts[it.number] = [self._two(it.op, a, b) for a, b in zip(one, other)]
            return
        work = getattr(self, f"do_{it.op}", None)
        if work is None:
            raise self._refused()
        found = work(it)
        if found is not None:
            self.parts[it.number] = found

    def do_zext(self, it: Instr) -> Parts:
        """The parts, and zeros."""
        own, width = it.widths[0], it.type.width
        if own > 64:
            parts = list(self._of(it.operands[0], own))
        else:
            parts = [it.operands[0] if own == 64 else self._make("zext", it.operands, it.types)]
        return parts + [_number(0)] * (-(-width // 64) - len(parts))

    def do_sext(self, it: Instr) -> Parts:
        """The parts, and copies of the sign."""
        own, width = it.widths[0], it.type.width
        if own > 64:
            parts = list(self._of(it.operands[0], own))
            parts[-1] = self._signed_top(parts[-1], own)
        else:
            parts = [it.operands[0] if own == 64 else self._make("sext", it.operands, it.types)]
        missing = -(-width // 64) - len(parts)
        if missing:
            parts += [self._two("ashr", parts[-1], _number(63))] * missing
        return self._masked(parts, width)

    def do_trunc(self, it: Instr) -> Parts | None:
        """The lowest parts."""
        parts = self._of(it.operands[0], it.widths[0])
        if it.type.width > 64:
            return self._masked(list(parts[: -(-it.type.width // 64)]), it.type.width)
        if it.type.width == 64:
            self.same[it.number] = parts[0]
        else:
            self._make("trunc", (parts[0],), (LONG,), it.type, number=it.number)
        return None

    def do_freeze(self, it: Instr) -> Parts:
        """Part by part."""
        return [self._make("freeze", (part,), (LONG,)) for part in self._of(it.operands[0], it.type.width)]

    def do_select(self, it: Instr) -> Parts:
        """Part by part."""
        one, other = (self._of(operand, it.type.width) for operand in it.operands[1:])
        return [self._choose(it.operands[0], a, b) for a, b in zip(one, other)]

    def do_icmp(self, it: Instr) -> None:
        """The highest parts that differ decide."""
        width, predicate = it.widths[0], it.predicate
        one, other = (list(self._of(operand, width)) for operand in it.operands)
        if predicate in ("eq", "ne"):
            differ = [self._two("xor", a, b) for a, b in zip(one, other)]
            for part in differ[1:]:
                differ[0] = self._two("or", differ[0], part)
            self._make("icmp", (differ[0], _number(0)), (LONG, LONG), BIT, predicate, it.number)
            return
        self.same[it.number] = self._compared(predicate, one, other, width)

    def _compared(self, predicate: str, one: Parts, other: Parts, width: int) -> Operand:
        """Whether one is less or greater than the other."""
        if predicate[0] == "s":
            one, other = ([*parts[:-1], self._signed_top(parts[-1], width)] for parts in (one, other))
        found: Operand = self._test(f"u{predicate[1:]}", one[0], other[0])
        for k in range(1, len(one)):
            strict = predicate[0] if k == len(one) - 1 else "u"
            above = self._test(f"{strict}{predicate[1]}t", one[k], other[k])
            equal = self._test("eq", one[k], other[k])
            found = self._both("or", above, self._both("and", equal, found))
        return found

    def do_call(self, it: Instr) -> Parts:
        """The intrinsics that choose: an absolute value, the least, the greatest."""
        op, width = (it.callee or "").split(".")[1:2] or [""], it.type.width
        one = list(self._of(it.operands[0], width)) if it.operands and it.widths[0] == width else []
        if op == ["abs"]:
            other = self._difference([_number(0)] * len(one), one, width)
            keeps = self._test("sge", self._signed_top(one[-1], width), _number(0))
        elif op[0] in EXTREMES:
            other = list(self._of(it.operands[1], width))
            keeps = self._compared(EXTREMES[op[0]], one, other, width)
        else:
            raise self._refused()
        return [self._choose(keeps, a, b) for a, b in zip(one, other)]

    def do_add(self, it: Instr) -> Parts:
        """With a carry."""
        one, other = (self._of(operand, it.type.width) for operand in it.operands)
        found: Parts = []
        carry: Operand | None = None
        for a, b in zip(one, other):
            total = self._make("add", (a, b), (LONG, LONG))
            over = self._test("ult", total, a)
            if carry is not None:
                total = self._make("add", (total, carry), (LONG, LONG))
                over = self._both("or", over, self._test("ult", total, carry))
            found.append(total)
            carry = self._make("zext", (over,), (BIT,))
        return self._masked(found, it.type.width)

    def do_sub(self, it: Instr) -> Parts:
        """With a borrow."""
        one, other = (self._of(operand, it.type.width) for operand in it.operands)
        return self._difference(one, other, it.type.width)

    def _difference(self, one: Parts, other: Parts, width: int) -> Parts:
        found: Parts = []
        borrow: Operand | None = None
        for a, b in zip(one, other):
            rest = self._make("sub", (a, b), (LONG, LONG))
            under = self._test("ult", a, b)
            if borrow is not None:
                under = self._both("or", under, self._test("ult", rest, borrow))
                rest = self._make("sub", (rest, borrow), (LONG, LONG))
            found.append(rest)
            borrow = self._make("zext", (under,), (BIT,))
        return self._masked(found, width)

    def do_mul(self, it: Instr) -> Parts:
        """Two parts by two."""
        one, other = (self._of(operand, it.type.width) for operand in it.operands)
        if len(one) > 2:
            raise self._refused()
        high = self._high(one[0], other[0])
        for a, b in ((one[0], other[1]), (one[1], other[0])):
            high = self._two("add", high, self._two("mul", a, b))
        return self._masked([self._make("mul", (one[0], other[0]), (LONG, LONG)), high], it.type.width)

    def _high(self, x: Operand, y: Operand) -> Operand:
        """The upper 64 bits of a product (Hacker's Delight, 8-2)."""
        half, low = _number(32), _number((1 << 32) - 1)
        x0, x1 = self._two("and", x, low), self._two("lshr", x, half)
        y0, y1 = self._two("and", y, low), self._two("lshr", y, half)
        first = self._two("lshr", self._two("mul", x0, y0), half)
        middle = self._two("add", self._two("mul", x1, y0), first)
        other = self._two("add", self._two("mul", x0, y1), self._two("and", middle, low))
        return self._two("add", self._two("add", self._two("mul", x1, y1), self._two("lshr", middle, half)),
                         self._two("lshr", other, half))

    # Shifts: by whole parts, then by bits.

    def _shift(self, it: Instr) -> Parts:
        width = it.type.width
        parts = list(self._of(it.operands[0], width))
        filler: Operand = _number(0)
        if it.op == "ashr":
            parts[-1] = self._signed_top(parts[-1], width)
            filler = self._two("ashr", parts[-1], _number(63))
        if it.op == "shl":
            parts.reverse()
        distance = self._of(it.operands[1], width)[0]
        if isinstance(distance, Int):
            moved = (parts[distance.value // 64:] + [filler] * len(parts))[: len(parts)]
            by: Operand = _number(distance.value % 64)
        else:
            moved, by = self._by_parts(parts, filler, distance), self._two("and", distance, _number(63))
        found = [self._by_bits(it.op, part, further, by)
                 for part, further in zip(moved, [*moved[1:], filler])]
        if it.op == "shl":
            found.reverse()
        return self._masked(found, width)

    do_shl = do_lshr = do_ashr = _shift

    def _by_parts(self, parts: Parts, filler: Operand, distance: Operand) -> Parts:
        step = 1
        while step < len(parts):
            bit = self._two("and", distance, _number(64 * step))
            is_far = self._test("ne", bit, _number(0))
            further = (parts[step:] + [filler] * len(parts))[: len(parts)]
            parts = [self._choose(is_far, far, near) for far, near in zip(further, parts)]
            step *= 2
        return parts

    def _by_bits(self, op: str, part: Operand, further: Operand, by: Operand) -> Operand:
        """A part, moved by less than 64 bits, with what comes into it of the next one."""
        if by == _number(0):
            return part
        out, into = ("shl", "lshr") if op == "shl" else ("lshr", "shl")
        if isinstance(by, Int):
            arrives = self._two(into, further, _number(64 - by.value))
        else:
            arrives = self._two(into, self._two(into, further, _number(1)),
                                self._make("sub", (_number(63), by), (LONG, LONG)))
        return self._two("or", self._two(out, part, by), arrives)

    # Memory.

    def _pieces(self, pointer: Operand, size: int) -> list[tuple[Operand, Type]]:
        """The pointers to the parts of so many bytes, and their types."""
        found: list[tuple[Operand, Type]] = []
        for at in range(0, size, 8):
            place = pointer
            if at:
                place = self._make("getelementptr", (pointer,), (POINTER,), POINTER)
                self.made[-1].element = Element(pointer, at, ())
            found.append((place, Type("int", 8 * min(8, size - at))))
        return found

    def do_load(self, it: Instr) -> Parts:
        """Part by part."""
        found: Parts = []
        for place, own in self._pieces(it.operands[0], it.type.bytes):
            part = self._make("load", (place,), (POINTER,), own)
            found.append(part if own.width == 64 else self._make("zext", (part,), (own,)))
        return self._masked(found, it.type.width)

    def do_store(self, it: Instr) -> None:
        """Part by part."""
        parts = self._of(it.operands[0], it.types[0].width)
        for part, (place, own) in zip(parts, self._pieces(it.operands[1], it.types[0].bytes)):
            value = part if own.width == 64 else self._make("trunc", (part,), (LONG,), own)
            self._make("store", (value, place), (own, POINTER), Type("void"))
