"""Computes in front of a loop what doesn't change in it, where the loop then hands on no more values than before.

LLVM does so with what it knows of; here it is the parts of addresses, signs and comparisons that `lower` adds.
"""

from __future__ import annotations

from wavescalar.isa import ALU
from wavescalar.c.flow import Block, Graph, Op, Operand, Var
from wavescalar.c.order import natural_loops, reverse_postorder

MOST = 2  # operations of one value that may be moved: as many values then come in in its place


def hoist(graph: Graph) -> None:
    """Moves operations of one value and a constant, or of two values, in front of loops, the innermost first."""
    order = reverse_postorder(graph.blocks[0], lambda block: block.targets)
    loops = natural_loops(order, lambda block: block.targets)
    for head in sorted(loops, key=lambda head: len(loops[head])):
        inside = loops[head]
        while moved := _fit(order, inside):
            front = _front(graph, head, inside, loops)
            if front is None:
                break
            for block in order:
                if block in inside:
                    block.ops = [op for op in block.ops if op not in moved]
            front.ops += moved
            order = reverse_postorder(graph.blocks[0], lambda block: block.targets)


def _fit(order: list[Block], inside: set[Block]) -> list[Op]:
    """The operations to move, in the order in which they stand."""
    blocks = [block for block in order if block in inside]
    made = {op.result for block in blocks for op in block.ops if op.result}
    made |= {phi.result for block in blocks for phi in block.phis}
    users: dict[Var, list[Op | None]] = {}  # in the loop; None is a phi or a branch
    for block in blocks:
        for op in block.ops:
            for arg in op.args:
                if isinstance(arg, Var):
                    users.setdefault(arg, []).append(op)
        others: list[Operand] = [phi.args[block] for target in block.targets for phi in target.phis]
        for arg in (*others, block.selector):
            if isinstance(arg, Var):
                users.setdefault(arg, []).append(None)

    def fits(op: Op) -> bool:
        values = [arg for arg in op.args if isinstance(arg, Var)]
        if op.kind not in ALU or any(value in made for value in values):
            return False
        if len(set(values)) == 1:
            using = users[values[0]]
            return len(using) <= MOST and all(
                one is not None and one.kind in ALU and set(one.args) & {values[0]} == {arg for arg in one.args
                                                                                        if isinstance(arg, Var)}
                for one in using)
        return all(users[value] == [op] for value in values)

    return [op for block in blocks for op in block.ops if fits(op)]


def _front(graph: Graph, head: Block, inside: set[Block], loops: dict[Block, set[Block]]) -> Block | None:
    """The block in front of a loop, a new one if need be; None where several lead to the loop."""
    outside = [block for block in graph.blocks if block not in inside and head in block.targets]
    if len(outside) != 1:
        return None
    source = outside[0]
    if source.exit == "go":
        return source
    made = Block(f"before_{head.name}", exit="go", targets=[head])
    source.retarget(head, made)
    for phi in head.phis:
        phi.args[made] = phi.args.pop(source)
    graph.blocks.append(made)
    for blocks in loops.values():
        if source in blocks and head in blocks:
            blocks.add(made)
    return made
