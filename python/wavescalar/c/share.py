"""Computes once what several blocks of a wave compute alike, where they are passed together.

Loops that LLVM unrolls leave the same product or sum in each copy of their body. A value that is computed in one block
comes to another that is passed exactly when that one is at no cost (waves.py), so that the others need not compute it.
"""

from __future__ import annotations

from wavescalar.c.cleanup import replace
from wavescalar.c.cut import Cut
from wavescalar.c.flow import COMMUTE, Graph, Op, Operand, Var
from wavescalar.isa import ALU


def share(graph: Graph, found: Cut) -> None:
    """Takes away operations without effects that one before them in the same wave has computed already."""
    same: dict[Var, Operand] = {}
    for wave in found.waves:
        made: dict[object, Var] = {}
        for block in wave.blocks:
            kept: list[Op] = []
            for op in block.ops:
                op.args = [_known(arg, same) for arg in op.args]
                if op.result and (op.kind in ALU or op.kind == "phi"):
                    key = found.same[block], op.kind, _together(op)
                    if key in made:
                        same[op.result] = made[key]
                        continue
                    made[key] = op.result
                kept.append(op)
            block.ops = kept
    replace(graph, same)


def _known(operand: Operand, same: dict[Var, Operand]) -> Operand:
    return same.get(operand, operand) if isinstance(operand, Var) else operand


def _together(op: Op) -> object:
    """The operands, without their order where that doesn't count."""
    return frozenset(op.args) if op.kind in COMMUTE else tuple(op.args)
