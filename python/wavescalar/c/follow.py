"""Follows a flow graph, operation by operation: what it prints, and which operation goes past the end of an array.

Operations are done in the order of C, so that the one that is found is the one at which each run of the image ends.
"""

from __future__ import annotations

from collections.abc import Iterable
from dataclasses import dataclass

from wavescalar.c.flow import Block, Graph, Op, Operand, Var
from wavescalar.isa import applied

MOST = 10_000_000  # operations; what takes more isn't followed to its end


@dataclass(frozen=True)
class Followed:
    """What happened. words: those that were printed. past: the load or store whose index is past the end, if there is
    one. ended: whether the graph came to an end, or to that operation."""

    words: tuple[int, ...]
    past: Op | None
    ended: bool


def value_of(op: Op, args: list[int]) -> int:
    """The result of an operation that touches no memory."""
    if op.kind == "phi":
        return args[0] if args[2] else args[1]
    return applied(op.kind, *args)


def follow(graph: Graph, given: Iterable[int], most: int = MOST) -> Followed:
    """Follows a graph that reads these words."""
    return _Follower(graph, given).follow(most)


class _Follower:
    def __init__(self, graph: Graph, given: Iterable[int]) -> None:
        self.here = graph.blocks[0]
        self.cells = [[0] * array.cells for array in graph.arrays]
        self.values: dict[Var, int] = {}
        self.given, self.words = iter(given), list[int]()

    def follow(self, most: int) -> Followed:
        """Does all, or so many operations."""
        before: Block | None = None
        while most > 0:
            if before:
                self.values.update([(phi.result, self._of(phi.args[before])) for phi in self.here.phis])
            for op in self.here.ops:
                if not self._do(op):
                    return Followed(tuple(self.words), op, True)
            if self.here.exit == "stop":
                return Followed(tuple(self.words), None, True)
            most -= len(self.here.ops) + 1
            is_second = self.here.exit == "if" and not self._of(self.here.selector)
            before, self.here = self.here, self.here.targets[is_second]
        return Followed(tuple(self.words), None, False)

    def _of(self, operand: Operand) -> int:
        return operand if isinstance(operand, int) else self.values[operand]

    def _do(self, op: Op) -> bool:
        """Does an operation; False where its index is past the end."""
        args = [self._of(arg) for arg in op.args]
        if op.kind in ("load", "store"):
            cells = self.cells[op.array or 0]
            if args[0] >= len(cells):
                return False
            if op.kind == "store":
                cells[args[0]] = args[1]
        if op.kind == "out":
            self.words.append(args[0])
        elif op.result:
            self.values[op.result] = (cells[args[0]] if op.kind == "load" else
                                      next(self.given, 0) if op.kind == "in" else value_of(op, args))
        return True
