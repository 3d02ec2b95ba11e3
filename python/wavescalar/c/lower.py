"""From LLVM's IR to the flow graph: values become words, pointers numbers of granules, objects arrays.

Words are those of words.py, memory is that of memory.py; here are blocks, values, calls and exits. An instruction of
LLVM is lowered by the method of its name.
"""

from __future__ import annotations

from wavescalar.c import arith
from wavescalar.c.checks import check
from wavescalar.c.flow import Block, Code, Graph, Operand as Word, Phi, Var
from wavescalar.c.ir import Instr, Int, Local, Module
from wavescalar.c.memory import UNKNOWN, Memory
from wavescalar.c.objects import COPIES, FILLS
from wavescalar.c.order import reverse_postorder

DIRECT = {"add": "add", "sub": "sub", "mul": "mul", "and": "and", "or": "or", "xor": "xor", "shl": "shl",
          "lshr": "shr", "udiv": "div", "urem": "rem"}


def lower(module: Module, result: bool = False) -> Graph:
    """The flow graph of a module. result: whether what main returns is printed, as the last word.

    Raises Refusal for what the machine has no form for.
    """
    check(module, [*DIRECT, *(name[3:] for name in dir(_Lowering) if name.startswith("do_"))])
    return _Lowering(module, result).graph


class _Lowering(Memory):
    def __init__(self, module: Module, result: bool) -> None:
        super().__init__(module)
        self.result = result
        self.pairs: dict[int, tuple[Word, Word]] = {}  # results of operations that tell whether they overflow
        self.heads: dict[int, Block] = {}
        self.tails: dict[int, Block] = {}
        self.phis: list[tuple[Instr, Phi, Block]] = []
        order = reverse_postorder(0, lambda number: module.blocks[number].targets)
        for number in order:
            self.heads[number] = self.block(module.blocks[number].name or f"b{number}")
        self.code.go(self.heads[0])
        for number in order:
            self._lower_block(number)
        self._fill_phis()

    # Values.

    def _lower_block(self, number: int) -> None:
        self.code = Code(self.heads[number])
        for it in self.module.blocks[number].instrs:
            self.code.place = it.place
            if it.op in DIRECT:
                x, y = self.words(it)
                word: Word | None = self.code.alu(DIRECT[it.op], x, y, it.name)
            else:
                word = getattr(self, f"do_{it.op}")(it)
            if word is not None:
                word = self._formed(it, word)
                self.values[it.number] = word
        self.tails[number] = self.code.block

    def _formed(self, it: Instr, word: Word) -> Word:
        """The word of a result, made clean or extended where it has to be."""
        widths, width = self.widths, it.type.width
        is_signed = it.number in widths.signed
        if (is_signed or it.number in widths.needed and it.op != "phi") and widths.comes_wide(it):
            word = arith.clean(self.code, word, width)
        return arith.extended(self.code, word, width) if is_signed else word

    def do_phi(self, it: Instr) -> Word:
        phi = Phi(Var(it.name), {})
        self.code.block.phis.append(phi)
        self.phis.append((it, phi, self.code.block))
        return phi.result

    def _fill_phis(self) -> None:
        """Gives phis their operands, once all are computed; edges that a constant condition cut have none."""
        leads = {(block, target) for block in self.graph.blocks for target in block.targets}
        for it, phi, block in self.phis:
            for operand, number in zip(it.operands, it.blocks):
                tail = self.tails.get(number)
                if tail and (tail, block) in leads:
                    is_wide = isinstance(operand, Int) and it.number in self.widths.extended
                    phi.args[tail] = self.extended(operand, it.type.width) if is_wide else self.word(operand)

    def do_icmp(self, it: Instr) -> Word:
        predicate, width = it.predicate, it.widths[0]
        if all(self.widths.is_positive(operand, width) for operand in it.operands):
            x, y = self.words(it)
            return arith.compare(self.code, predicate.replace("s", "u"), x, y, width)
        if all(map(self.widths.may_extend, it.operands)):
            x, y = (self.extended(operand, width) for operand in it.operands)
            return arith.compare_extended(self.code, predicate, x, y, width)
        x, y = self.words(it)
        return arith.compare(self.code, predicate, x, y, width)

    def _divide(self, it: Instr) -> Word:
        width = it.type.width
        if all(self.widths.is_positive(operand, width) for operand in it.operands):
            x, y = self.words(it)
            return self.code.alu("div" if it.op == "sdiv" else "rem", x, y)
        x, y = (self.extended(operand, width) for operand in it.operands)
        return arith.divide(self.code, it.op, x, y)

    do_sdiv = do_srem = _divide

    def do_ashr(self, it: Instr) -> Word:
        width, value = it.type.width, it.operands[0]
        distance = self.words(it)[1]
        if self.widths.is_positive(value, width):
            return self.code.alu("shr", self.word(value), distance)
        if self.widths.may_extend(value):
            return arith.shift_right(self.code, self.extended(value, width), distance, 64)
        return arith.shift_right(self.code, self.clean(value, width), distance, width)

    def do_sext(self, it: Instr) -> Word:
        return self.extended(it.operands[0], it.widths[0])

    def _same(self, it: Instr) -> Word:
        return self.words(it)[0]

    do_zext = do_trunc = do_freeze = do_bitcast = _same

    def do_ptrtoint(self, it: Instr) -> Word:
        layout = self.layouts.layout(it.operands[0])
        return self.code.alu("mul", self.word(it.operands[0]), layout.granule if layout else 1)

    def do_inttoptr(self, it: Instr) -> Word:
        layout = self.layouts.layout(Local(it.number))
        if layout is None:
            raise it.refused(f"{UNKNOWN}: it is made of an integer")
        return self.code.alu("div", self.clean(it.operands[0], it.widths[0]), layout.granule)

    def do_select(self, it: Instr) -> Word:
        chosen, one, other = self.words(it)
        if it.type.width == 1 and it.type.kind == "int":
            if other == 0:
                return self.code.alu("and", chosen, one)
            if one == 1:
                return self.code.alu("or", chosen, other)
        return self.code.choose(chosen, one, other, it.name)

    def do_extractvalue(self, it: Instr) -> Word:
        source = it.operands[0]
        if not isinstance(source, Local) or source.number not in self.pairs or it.size not in (0, 1):
            raise it.refused("a struct as a value")
        return self.pairs[source.number][it.size]

    # Calls.

    def do_call(self, it: Instr) -> Word | None:
        name = it.callee or ""
        if name == "ws_read":
            return self.code.read(it.name)
        if name == "ws_print":
            self.code.write(self.words(it)[0])
        elif name.startswith(COPIES):
            self.copy(it)
        elif name.startswith(FILLS):
            self.fill(it)
        elif name != "exit":
            return self._intrinsic(it)
        return None

    def _intrinsic(self, it: Instr) -> Word | None:
        parts = (it.callee or "").split(".")
        op, code = parts[1], self.code
        words = self.words(it)
        width = it.type.width or (it.widths[0] if it.widths else 0)
        found: Word | None = None
        if op in arith.UNARY and not (op in ("bswap", "bitreverse") and width & (width - 1)):
            found = arith.UNARY[op](code, words[0], width)
        elif op in arith.CHOICES:
            found = arith.extreme(code, op, words[0], words[1], width, it.number in self.widths.extended)
        elif op in ("fshl", "fshr") and width & (width - 1) == 0:
            found = arith.clean(code, arith.funnel(code, words[0], words[1], words[2], width, op == "fshl"), width)
        elif parts[2:3] == ["sat"]:
            found = arith.saturating(code, op, words[0], words[1], width)
        elif parts[2:4] == ["with", "overflow"]:
            self.pairs[it.number] = arith.overflowing(code, op, words[0], words[1], it.widths[0])
            return None
        elif op == "expect":
            found = words[0]
        if found is None:
            raise it.refused(f"the intrinsic {it.callee} of {width} bits")
        return found

    # Exits.

    def do_br(self, it: Instr) -> None:
        if len(it.blocks) == 1:
            self.code.go(self.heads[it.blocks[0]])
        else:
            self.code.branch(self.words(it)[0], *(self.heads[number] for number in it.blocks))

    def do_ret(self, it: Instr) -> None:
        if self.result and it.operands:
            self.code.write(self.words(it)[0])

    def do_unreachable(self, it: Instr) -> None:
        """Where a run doesn't come, or behind `exit`: the block stops."""
