"""Which words values lie in.

A value of n bits lies in a word of 64, in one of three forms. It is *clean* where the bits above are 0, and *extended*
where they are copies of the sign; a value that isn't negative is both. What doesn't look at them, as `add` or `trunc`,
takes any word, and gives one that may be neither. What looks at them needs a clean word, or, where it goes by signs,
takes an extended one.

A value is made clean where it is computed, and only if something needs that. One that comes out extended, and is used
so, stays so; what needs it clean, or stands in fewer loops than it, makes it clean for itself. One that several blocks
need extended, and nothing needs clean, is made extended where it is computed.
"""

from __future__ import annotations

from collections.abc import Callable

from wavescalar.c.ir import Instr, Int, Local, Module, Operand
from wavescalar.c.order import natural_loops, reverse_postorder

# Operations that hand on what their operands hold; the first operand of a select is its condition.
PASSES = {"phi": 0, "select": 1}
WRAPS = ("add", "sub", "mul", "shl")
BITS = ("and", "or", "xor")
SHIFTS = ("shl", "lshr", "ashr")
SIGNED = ("ashr", "sdiv", "srem", "sext")
MADE = (*WRAPS, *BITS, "trunc", "load")  # whose results may be made extended where they are computed
EXTREMES = tuple(f"llvm.{word}." for word in ("smin", "smax", "umin", "umax"))


def demanded(it: Instr) -> range:
    """The places of the operands that an instruction needs clean, or extended where it takes that."""
    op, count = it.op, len(it.operands)
    if op in SHIFTS and it.type.width >= 6:  # a distance counts modulo 64, and one that isn't below the width means nothing
        return range(op != "shl")
    if op in ("icmp", "udiv", "urem", "sdiv", "srem", "lshr", "ashr", "zext", "sext", "call", "br", "ret", "inttoptr"):
        return range(count)
    if op in ("select", "store"):
        return range(1)
    return range(1, 2) if op == "shl" else range(0)


def handed(it: Instr) -> range:
    """The places of the operands whose form the result has, where they all have one."""
    count = len(it.operands)
    if it.op in PASSES:
        return range(PASSES[it.op], count)
    if it.op == "call":
        return range(count if (it.callee or "").startswith(EXTREMES) else 0)
    return range({"shl": 1}.get(it.op, count) if it.op in (*WRAPS, *BITS) else 0)


class Widths:
    """The forms of a function's values, by the numbers of instructions.

    positive: those that are never negative, whose words are clean. extended: others whose words are extended.
    signed: those of them that are made so where they are computed. needed: those that are made clean there.
    unclean: those whose words may not be clean.
    """

    def __init__(self, module: Module, signed_cells: frozenset[int] = frozenset()) -> None:
        """signed_cells: the loads and stores of cells that hold extended words (signs.py)."""
        self.instrs, self.signed_cells = module.instrs, signed_cells
        self.depths = loop_depths(module)
        self.needed: set[int] = set()
        self.extended: set[int] = set()
        self.signed: set[int] = set()
        integers = {it.number for it in self.instrs if it.type.kind == "int"}
        self.positive = integers  # which _keep reads while it takes away
        self._keep("positive", self._stays_positive)
        self.extended = {number for number in integers - self.positive if 1 < self.instrs[number].type.width < 64}
        self.signed = self._liked_by_several(module) & self.extended
        before = None
        while before != (self.extended, self.needed):
            before = self.extended, self.needed
            self._keep("extended", self._stays_extended)
            self.needed = self._find_needed()
            self.extended = self.extended - self.needed
            self.signed = self.signed & self.extended
        self.unclean: set[int] = set()
        found: set[int] | None = None
        while found != self.unclean:
            self.unclean = set() if found is None else found
            found = {it.number for it in self.instrs if it.number not in self.needed and self.is_wide(it)}

    def _keep(self, name: str, stays: Callable[[Instr], bool]) -> None:
        """Takes out of a set what doesn't stay by what is in it, until all stay: induction along loops."""
        changed = True
        while changed:
            old: set[int] = getattr(self, name)
            kept = {number for number in old if stays(self.instrs[number])}
            changed = kept != old
            setattr(self, name, kept)

    def _liked_by_several(self, module: Module) -> set[int]:
        """The results of operations that would have to be made extended in several blocks."""
        blocks: dict[int, set[int]] = {}
        for block in module.blocks:
            for it in block.instrs:
                if it.op == "getelementptr" and it.element:
                    liked = [index for index, _ in it.element.indices]
                else:
                    liked = list(it.operands) if it.op in ("sext", "sdiv", "srem") else []
                for operand in liked:
                    if isinstance(operand, Local):
                        blocks.setdefault(operand.number, set()).add(block.number)
        return {number for number, used in blocks.items() if len(used) > 1 and self.instrs[number].op in MADE
                and number not in self.signed_cells}

    # What something needs.

    def _find_needed(self) -> set[int]:
        liked = {operand.number for it in self.instrs for operand in self._taken_extended(it)
                 if isinstance(operand, Local)}
        waiting = [operand for it in self.instrs for operand in self._demands(it)
                   if not (isinstance(operand, Local) and operand.number in liked & self.extended)]
        found: set[int] = set()
        while waiting:
            operand = waiting.pop()
            if isinstance(operand, Local) and operand.number not in found:
                found.add(operand.number)
                it = self.instrs[operand.number]
                if it.op in PASSES:
                    waiting += it.operands[PASSES[it.op]:]
        return found

    def _taken_extended(self, it: Instr) -> list[Operand]:
        """The operands that an instruction uses as extended words."""
        if self.follows(it) and handed(it):
            return [it.operands[k] for k in handed(it)]
        if it.op == "getelementptr" and it.element:
            return [index for index, _ in it.element.indices if self.may_extend(index)]
        if it.op == "ashr":
            return [operand for operand in it.operands[:1] if self.may_extend(operand)]
        if it.op in ("sext", "sdiv", "srem"):
            return [operand for operand in it.operands if self.may_extend(operand)]
        if it.op == "store" and it.number in self.signed_cells:
            return list(it.operands[:1])
        return list(it.operands) if it.op == "icmp" and all(map(self.may_extend, it.operands)) else []

    def _demands(self, it: Instr) -> list[Operand]:
        """The operands that have to be made clean where they are computed, whatever becomes of the result."""
        if it.op == "getelementptr" and it.element:
            found = [index for index, _ in it.element.indices]
        else:
            found = [it.operands[k] for k in demanded(it)]
        own, taken = self.depths.get(it.number, 0), self._taken_extended(it)
        return [operand for operand in found if operand not in taken
                and not (isinstance(operand, Local) and self.depths.get(operand.number, 0) > own)]

    # What words are.

    def follows(self, it: Instr) -> bool:
        """Whether a result is extended since its operands are."""
        return it.number in self.extended and it.number not in self.signed

    def may_extend(self, operand: Operand) -> bool:
        """Whether an operand has an extended word without more ado."""
        return isinstance(operand, Int) or isinstance(operand, Local) and (
            operand.number in self.extended or operand.number in self.positive)

    def is_wide(self, it: Instr) -> bool:
        """Whether the word of a result may not be clean, before it is made so."""
        return it.number in self.signed or self.comes_wide(it)

    def comes_wide(self, it: Instr) -> bool:
        """Whether the machine's own operation may give a word that isn't clean."""
        width = it.type.width
        if it.type.kind != "int" or width >= 64 or it.number in self.positive:
            return False
        extended = self.follows(it)
        unclean = [isinstance(part, Local) and part.number in self.unclean for part in it.operands]
        if it.op in WRAPS:
            return any(unclean) or "nuw" not in it.flags or extended
        if it.op == "and":
            return all(unclean) or extended
        if it.op == "load":
            return width != 8 * it.type.bytes or it.number in self.signed_cells
        if it.op in BITS or it.op in PASSES:
            return any(unclean[PASSES.get(it.op, 0):]) or extended
        return it.op in (*SIGNED, "trunc", "ptrtoint", "freeze") or extended

    def is_positive(self, operand: Operand, width: int) -> bool:
        """Whether a number of this width, read with its sign, is surely not negative."""
        if isinstance(operand, Int):
            return operand.value < 1 << (width - 1)
        return isinstance(operand, Local) and operand.number in self.positive

    def _stays_positive(self, it: Instr) -> bool:
        width, op = it.type.width, it.op

        def parts(*places: int) -> list[bool]:
            return [self.is_positive(it.operands[k], width) for k in places]

        if op in ("zext", "sext"):
            own = it.widths[0]
            return op == "zext" and own < width or self.is_positive(it.operands[0], own)
        if op == "and":
            return any(parts(0, 1))
        if op == "lshr":
            distance = it.operands[1]
            return isinstance(distance, Int) and distance.value > 0 or parts(0)[0]
        if op in ("add", "mul", "shl"):
            return "nsw" in it.flags and all(parts(0) if op == "shl" else parts(0, 1))
        if op in ("udiv", "sdiv", "or", "xor"):
            return all(parts(0, 1))
        if op == "urem":
            return parts(1)[0]
        if op in ("srem", "ashr"):
            return parts(0)[0]
        return op in PASSES and all(parts(*range(PASSES[op], len(it.operands))))

    def _stays_extended(self, it: Instr) -> bool:
        if it.op in SIGNED or it.number in self.signed or it.number in self.signed_cells:
            return True
        if it.op in WRAPS and "nsw" not in it.flags:
            return False
        return bool(handed(it)) and all(self.may_extend(it.operands[k]) for k in handed(it))


def loop_depths(module: Module) -> dict[int, int]:
    """In how many loops each instruction stands."""
    def targets(number: int) -> tuple[int, ...]:
        return module.blocks[number].targets

    depths: dict[int, int] = {}
    for inside in natural_loops(reverse_postorder(0, targets), targets).values():
        for number in inside:
            depths[number] = depths.get(number, 0) + 1
    return {it.number: depths.get(block.number, 0) for block in module.blocks for it in block.instrs}
