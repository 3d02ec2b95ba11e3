"""The words of operands, in the forms that instructions need (widths.py)."""

from __future__ import annotations

from wavescalar.c import arith
from wavescalar.c.copies import memory
from wavescalar.c.flow import Block, Code, Graph, Operand as Word
from wavescalar.c.ir import Address, Expression, Instr, Int, Local, Module, Null, Operand, Undefined
from wavescalar.c.signs import signs
from wavescalar.c.widths import Widths, demanded, handed


class Words:
    """What is known of a module while it is lowered: forms, layouts, and the word of each result so far.

    code: where operations are appended.
    """

    def __init__(self, module: Module) -> None:
        self.module = module
        self.layouts = memory(module)
        self.objects = self.layouts.objects
        self.signs = signs(module, self.layouts)
        self.widths = Widths(module, self.signs.accesses)
        self.graph = Graph()
        self.values: dict[int, Word] = {}
        self.code = Code(self.block("start"))

    def block(self, name: str) -> Block:
        """A new block of the graph."""
        self.graph.blocks.append(Block(name))
        return self.graph.blocks[-1]

    def word(self, operand: Operand) -> Word:
        """The word of an operand."""
        if isinstance(operand, Local):
            return self.values[operand.number]
        if isinstance(operand, Int):
            return operand.value
        if isinstance(operand, Expression):
            return self.objects.number(operand)
        if isinstance(operand, Address):
            layout = self.layouts.layout(operand)
            return layout.cell_of(self.objects.offset(operand)) if layout else 0
        assert isinstance(operand, (Null, Undefined))
        return 0

    def clean(self, operand: Operand, width: int) -> Word:
        """The clean word of an operand: as it is computed, or made so here."""
        word = self.word(operand)
        if isinstance(operand, Local) and operand.number in self.widths.unclean:
            return arith.clean(self.code, word, width)
        return word

    def words(self, it: Instr) -> list[Word]:
        """The words of all operands, in the forms in which they have to be."""
        need, like = demanded(it), handed(it) if self.widths.follows(it) else range(0)
        return [self.extended(operand, width) if k in like else
                self.clean(operand, width) if k in need else self.word(operand)
                for k, (operand, width) in enumerate(zip(it.operands, it.widths))]

    def extended(self, operand: Operand, width: int) -> Word:
        """The word of 64 bits with the same signed value."""
        if isinstance(operand, Int):
            return arith.extended_constant(operand.value, width)
        if self.widths.may_extend(operand):
            return self.word(operand)
        return arith.extended(self.code, self.clean(operand, width), width)
