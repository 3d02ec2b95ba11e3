"""Adds constants to one value step by step, where that takes fewer constants.

Constants are made anew wherever they are used. Of `x + 12`, `x + 24` and `x + 36` each sum but the first can be the one
before it and 12, so that one constant is enough. Loops that were unrolled have many such sums for indices.
"""

from __future__ import annotations

from collections import Counter
from collections.abc import Iterable

from wavescalar.c.cut import Cut
from wavescalar.c.flow import Block, Op, Operand, Var
from wavescalar.isa import WORDS


def step(found: Cut) -> None:
    """Changes sums in blocks that are passed together."""
    for wave in found.waves:
        together: dict[Block, list[Op]] = {}
        for block in wave.blocks:
            together.setdefault(found.same[block], []).extend(block.ops)
        for ops in together.values():
            _Steps(ops).make()


class _Steps:
    def __init__(self, ops: list[Op]) -> None:
        self.sums: dict[Var, list[Op]] = {}
        for op in ops:
            if op.kind == "add" and isinstance(op.args[0], Var) and isinstance(op.args[1], int):
                self.sums.setdefault(op.args[0], []).append(op)
        self.uses = Counter(_constants(ops))  # of constants, in how many operations each stands

    def make(self) -> None:
        """Takes steps where a constant is gone then, or a step is one that is there anyway."""
        for sums in self.sums.values():
            wanted = [_constant(op) for op in sums]
            steps = Counter((one - other) % WORDS for one, other in zip(wanted[1:], wanted))
            for op, before, own, last in zip(sums[1:], sums, wanted[1:], wanted):
                by = (own - last) % WORDS
                if self.uses[own] == 1 and (self.uses[by] or steps[by] > 1):
                    self.uses[own] -= 1
                    self.uses[by] += 1
                    op.args = [_result(before), by]


def _constants(ops: Iterable[Op]) -> list[int]:
    return [arg for op in ops for arg in set[Operand](op.args) if isinstance(arg, int)]


def _constant(op: Op) -> int:
    assert isinstance(op.args[1], int)
    return op.args[1]


def _result(op: Op) -> Var:
    assert op.result
    return op.result
