"""Copies small blocks in which paths of several waves meet, so that each path goes on in its own wave.

Such a block would be a wave of its own: all that lives there takes an advance more, and the block a `nop` where it has no
operation of memory. A copy for each wave that leads to it costs nothing but instructions of the image.
"""

from __future__ import annotations

from wavescalar.c.cut import waves_of
from wavescalar.c.flow import Block, Graph, Op, Operand, Phi, Var
from wavescalar.c.order import reverse_postorder, sources_of
from wavescalar.c.rename import users

LARGE = 12  # operations; a larger block isn't copied
MOST = 4  # waves that lead to a block which is copied


def part(graph: Graph) -> None:
    """Copies what is small, and leads to one block to which others lead too."""
    while _Round(graph).part():
        pass


class _Round:
    """What is known of a graph while blocks are copied that have nothing to do with each other."""

    def __init__(self, graph: Graph) -> None:
        self.graph = graph
        self.order = reverse_postorder(graph.blocks[0], lambda block: block.targets)
        self.sources = sources_of(self.order, lambda block: block.targets)
        self.waves, self.of = waves_of(self.order)
        self.users = users(graph.blocks)

    def part(self) -> bool:
        """Copies blocks; whether there was one."""
        touched: set[Block] = set()
        for block in self._meetings():
            near = [block, *self.sources[block], *block.targets]
            if touched.isdisjoint(near) and not self._escapes(block):
                touched.update(near)
                groups: dict[object, list[Block]] = {}
                for source in dict.fromkeys(self.sources[block]):
                    groups.setdefault(self.of[source], []).append(source)
                for group in list(groups.values())[1:]:
                    _copy(self.graph, block, group)
        return bool(touched)

    def _meetings(self) -> list[Block]:
        """The blocks to copy."""
        place, sources = {block: k for k, block in enumerate(self.order)}, self.sources
        heads = {wave.head for wave in self.waves}
        return [block for block in self.order[1:] if block in heads and block.exit == "go" and len(block.ops) <= LARGE
                and 1 < len({self.of[source] for source in sources[block]}) <= MOST
                and all(place[source] < place[block] for source in sources[block])
                and len(sources[block.targets[0]]) > 1 and block.targets[0] is not block]

    def _escapes(self, block: Block) -> bool:
        """Whether something that a block computes is used elsewhere than in it and by the phis behind it."""
        made = {op.result for op in block.ops if op.result} | {phi.result for phi in block.phis}
        others = {other for var in made for other in self.users.get(var, ())}
        for other in others:
            found = {arg for phi in other.phis for source, arg in phi.args.items() if source is not block}
            if other is not block:
                found |= {other.selector, *(arg for op in other.ops for arg in op.args)}
            if not made.isdisjoint(arg for arg in found if isinstance(arg, Var)):
                return True
        return False


def _copy(graph: Graph, block: Block, group: list[Block]) -> None:
    """A copy of a block for these of its sources."""
    made = Block(block.name, exit="go", targets=list(block.targets))
    same: dict[Var, Operand] = {}

    def of(operand: Operand) -> Operand:
        return same.get(operand, operand) if isinstance(operand, Var) else operand

    for phi in block.phis:
        result = Var(phi.result.name)
        made.phis.append(Phi(result, {source: phi.args.pop(source) for source in group}))
        same[phi.result] = result
    for op in block.ops:
        args = [of(arg) for arg in op.args]
        result_of = Var(op.result.name) if op.result else None
        made.ops.append(Op(op.kind, result_of, args, op.array, op.place))
        if op.result and result_of:
            same[op.result] = result_of
    for phi in block.targets[0].phis:
        phi.args[made] = of(phi.args[block])
    for source in group:
        source.retarget(block, made)
    graph.blocks.append(made)
