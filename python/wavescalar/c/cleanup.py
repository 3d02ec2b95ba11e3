"""Makes a flow graph smaller, and ready for waves."""

from __future__ import annotations

from wavescalar.c.flow import EFFECTS, Block, Graph, Op, Operand, Var
from wavescalar.c.order import reverse_postorder


def tidy(graph: Graph) -> None:
    """Takes away what no run comes to and what nothing uses, and spares comparisons with 0 before branches."""
    _prune(graph)
    _branch_on_words(graph)
    _join_lines(graph)
    _drop_unused(graph)


def _prune(graph: Graph) -> None:
    order = reverse_postorder(graph.blocks[0], lambda block: block.targets)
    leads = {(block, target) for block in order for target in block.targets}
    for block in order:
        for phi in block.phis:
            phi.args = {source: arg for source, arg in phi.args.items() if (source, block) in leads}
    graph.blocks = order


def _branch_on_words(graph: Graph) -> None:
    """A selector takes every word but 0 as true: so `x != 0` is x, and `x == 0` is x with the two sides exchanged."""
    made = {op.result: op for op in graph.ops() if op.result}
    for block in graph.blocks:
        if block.exit == "if":
            block.selector, turned = _tested(block.selector, made)
            if turned:
                block.targets.reverse()
    for op in graph.ops():
        if op.kind == "phi":
            op.args[2], turned = _tested(op.args[2], made)
            if turned:
                op.args[0], op.args[1] = op.args[1], op.args[0]


def _tested(selector: Operand, made: dict[Var, Op]) -> tuple[Operand, bool]:
    """The word that a selector compares with 0, and whether it is true where that is 0."""
    turned = False
    while isinstance(selector, Var) and selector in made:
        op = made[selector]
        if op.kind not in ("eq", "ne") or op.args[1] != 0:
            break
        selector, turned = op.args[0], turned != (op.kind == "eq")
    return selector, turned


def _join_lines(graph: Graph) -> None:
    """Puts a block behind its only source, where that leads nowhere else."""
    sources: dict[Block, list[Block]] = {block: [] for block in graph.blocks}
    for block in graph.blocks:
        for target in block.targets:
            sources[target].append(block)
    gone: set[Block] = set()
    same: dict[Var, Operand] = {}
    for block in graph.blocks:
        while block not in gone and block.exit == "go":
            target = block.targets[0]
            if len(sources[target]) != 1 or target is graph.blocks[0]:
                break
            same.update({phi.result: phi.args[block] for phi in target.phis})
            block.ops += target.ops
            block.exit, block.selector, block.targets = target.exit, target.selector, target.targets
            for further in dict.fromkeys(block.targets):
                sources[further] = [block if source is target else source for source in sources[further]]
                for phi in further.phis:
                    phi.args = {block if source is target else source: arg for source, arg in phi.args.items()}
            gone.add(target)
    graph.blocks = [block for block in graph.blocks if block not in gone]
    replace(graph, same)


def replace(graph: Graph, same: dict[Var, Operand]) -> None:
    """Puts operands in place of variables, everywhere."""
    def of(operand: Operand) -> Operand:
        while isinstance(operand, Var) and operand in same:
            operand = same[operand]
        return operand

    if not same:
        return
    for block in graph.blocks:
        for phi in block.phis:
            phi.args = {source: of(arg) for source, arg in phi.args.items()}
        for op in block.ops:
            op.args = [of(arg) for arg in op.args]
        block.selector = of(block.selector)
        if block.exit == "if" and isinstance(block.selector, int):
            block.exit, block.targets = "go", [block.targets[0 if block.selector else 1]]


def drop_same_phis(graph: Graph) -> None:
    """Takes away phis all of whose operands are one value, or the phi itself."""
    changed = True
    while changed:
        same: dict[Var, Operand] = {}
        for block in graph.blocks:
            for phi in block.phis:
                others = {arg for arg in phi.args.values() if arg is not phi.result}
                if len(others) == 1 and not (others & same.keys()):
                    same[phi.result] = others.pop()
            block.phis = [phi for phi in block.phis if phi.result not in same]
        replace(graph, same)
        changed = bool(same)


def _drop_unused(graph: Graph) -> None:
    made: dict[Var, Op] = {op.result: op for op in graph.ops() if op.result}
    phis = {phi.result: phi for block in graph.blocks for phi in block.phis}
    waiting: list[Operand] = [block.selector for block in graph.blocks if block.exit == "if"]
    for op in graph.ops():
        if op.kind in EFFECTS:
            waiting += op.args
    used: set[Var] = set()
    while waiting:
        operand = waiting.pop()
        if isinstance(operand, Var) and operand not in used:
            used.add(operand)
            waiting += made[operand].args if operand in made else phis[operand].args.values()
    for block in graph.blocks:
        block.ops = [op for op in block.ops if op.kind in EFFECTS or op.result in used]
        block.phis = [phi for phi in block.phis if phi.result in used]
