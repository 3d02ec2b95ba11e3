"""Lets a turn of a small loop do several: its blocks are copied, each copy with its tests.

A value that a loop carries takes an advance where a turn begins. With so many copies of the loop's blocks, one behind the
other in a wave, it takes one for so many turns. Nothing has to be known of how often the loop runs.
"""

from __future__ import annotations

from wavescalar.c.flow import Block, Graph, Op, Operand, Phi, Var
from wavescalar.c.order import natural_loops, reverse_postorder, sources_of
from wavescalar.c.rename import rename, users

COPIES = 4  # of a loop's blocks, at most
LARGE = 96  # operations and phis that all copies together may have


def unroll(graph: Graph) -> None:
    """Copies the blocks of the loops that have no loop inside."""
    order = reverse_postorder(graph.blocks[0], lambda block: block.targets)
    loops = natural_loops(order, lambda block: block.targets)
    place = {block: k for k, block in enumerate(order)}
    closing = _Closing(graph)
    counts: list[tuple[list[Block], int]] = []
    for blocks in (sorted(inside, key=place.__getitem__) for inside in loops.values()):
        count = min(COPIES, LARGE // sum(1 + len(block.ops) + len(block.phis) for block in blocks))
        if count > 1 and _is_innermost(blocks):
            counts.append((blocks, count))
    for blocks, _ in counts:  # all are closed before any is copied
        closing.close(blocks)
    for blocks, count in counts:
        _Copies(graph, blocks).make(count)


def _is_innermost(blocks: list[Block]) -> bool:
    """Whether a loop's blocks, in reverse postorder, have no cycle but through the first; some cycles are no natural loops,
    since they are entered in two places."""
    place = {block: k for k, block in enumerate(blocks)}
    return all(place.get(target, len(blocks)) > place[block] for block in blocks for target in block.targets
               if target is not blocks[0])


class _Closing:
    """Puts blocks behind loops, in which phis take what the loops computed."""

    def __init__(self, graph: Graph) -> None:
        self.graph = graph
        self.sources = sources_of(graph.blocks, lambda block: block.targets)
        self.users = users(graph.blocks)

    def close(self, blocks: list[Block]) -> None:
        """Gives each block behind a loop one in front of it."""
        inside = set(blocks)
        behind = list(dict.fromkeys(target for block in blocks for target in block.targets if target not in inside))
        landings = [self._landing(blocks, target) for target in behind]
        apart = inside | set(landings)
        homes = {phi.result: block for block in blocks for phi in block.phis}
        homes.update({op.result: block for block in blocks for op in block.ops if op.result})
        for var, home in homes.items():
            used = [block for block in self.users.get(var, ()) if block not in apart and _takes(block, var)]
            if not used:
                continue
            ends = {home: var}
            for landing in landings:
                phi = Phi(Var(var.name), {source: var for source in self.sources[landing]})
                landing.phis.append(phi)
                ends[landing] = phi.result
            rename(self.sources, var, ends, used, apart)

    def _landing(self, blocks: list[Block], target: Block) -> Block:
        """A block between the loop and one behind it."""
        made = Block(f"behind_{blocks[0].name}", exit="go", targets=[target])
        own = [block for block in blocks if target in block.targets]
        for block in own:
            block.retarget(target, made)
        for phi in target.phis:
            joined = Phi(Var(phi.result.name), {block: phi.args.pop(block) for block in own})
            made.phis.append(joined)
            phi.args[made] = joined.result
            for arg in joined.args.values():
                if isinstance(arg, Var):
                    self.users.setdefault(arg, []).append(made)
        self.graph.blocks.append(made)
        self.sources[made] = own
        self.sources[target] = [block for block in self.sources[target] if block not in own] + [made]
        return made


def _takes(block: Block, var: Var) -> bool:
    """Whether a block takes a value."""
    return block.selector is var or any(var in op.args for op in block.ops) or any(
        arg is var for phi in block.phis for arg in phi.args.values())


class _Copies:
    """The copies of a loop whose values are used outside by phis of the blocks behind alone."""

    def __init__(self, graph: Graph, blocks: list[Block]) -> None:
        self.graph, self.blocks, self.head = graph, blocks, blocks[0]
        self.latches = [block for block in blocks if self.head in block.targets]
        self.behind = list(dict.fromkeys(t for block in blocks for t in block.targets if t not in blocks))

    def make(self, count: int) -> None:
        """Puts so many one behind the other in a turn."""
        turns = {phi: {latch: phi.args.pop(latch) for latch in self.latches} for phi in self.head.phis}
        same: dict[Var, Operand] = {}
        last: dict[Block, Block] = {block: block for block in self.blocks}
        for _ in range(count - 1):
            same, last = self._copy(turns, same, last)
        for phi, args in turns.items():
            phi.args.update({last[latch]: _of(arg, same) for latch, arg in args.items()})

    def _copy(self, turns: dict[Phi, dict[Block, Operand]], before: dict[Var, Operand],
              last: dict[Block, Block]) -> tuple[dict[Var, Operand], dict[Block, Block]]:
        """One copy more behind those before; its values and its blocks by those of the loop."""
        made = {block: Block(block.name, exit=block.exit) for block in self.blocks}
        same: dict[Var, Operand] = {}
        for phi, args in turns.items():
            came = {last[latch]: _of(arg, before) for latch, arg in args.items()}
            if len(came) == 1:
                same[phi.result] = next(iter(came.values()))
            else:
                same[phi.result] = result = Var(phi.result.name)
                made[self.head].phis.append(Phi(result, came))
        for block in self.blocks:
            self._fill(block, made, same)
        for latch in self.latches:
            last[latch].retarget(self.head, made[self.head])
        self.graph.blocks += made.values()
        return same, made

    def _fill(self, block: Block, made: dict[Block, Block], same: dict[Var, Operand]) -> None:
        """The operations, the exit, and the phis of a block's copy; of the head those are there already."""
        copy = made[block]
        for phi in block.phis if block is not self.head else ():
            result = same[phi.result] = Var(phi.result.name)
            copy.phis.append(Phi(result, {made[source]: _of(arg, same) for source, arg in phi.args.items()}))
        for op in block.ops:
            args = [_of(arg, same) for arg in op.args]
            result_of = Var(op.result.name) if op.result else None
            copy.ops.append(Op(op.kind, result_of, args, op.array, op.place))
            if op.result and result_of:
                same[op.result] = result_of
        copy.selector = _of(block.selector, same)
        copy.targets = [target if target is self.head else made.get(target, target) for target in self._targets(block)]
        if copy.exit == "if" and isinstance(copy.selector, int):  # known in this copy; `tidy` takes the rest away
            copy.exit, copy.targets = "go", [copy.targets[0 if copy.selector else 1]]
        for target in dict.fromkeys(copy.targets):
            if target in self.behind:
                for phi in target.phis:
                    phi.args[copy] = _of(phi.args[block], same)

    def _targets(self, block: Block) -> list[Block]:
        """Where a block of the loop led at first."""
        return [target if target in self.blocks or target in self.behind else self.head for target in block.targets]


def _of(operand: Operand, same: dict[Var, Operand]) -> Operand:
    return same.get(operand, operand) if isinstance(operand, Var) else operand
