"""Keeps values in memory while loops run that don't use them.

A value that a loop hands on from turn to turn costs an advance and a steer in each. One that no turn uses is stored
where it is computed, in a hidden cell, and loaded behind the loop, for some four firings in all. A value doesn't change
and the next one of its name comes after its last use, so that one cell is enough for each. The cells are those of
different arrays, as long as there are arrays, so that several are stored or loaded with one constant for an index.
"""

from __future__ import annotations

from dataclasses import dataclass

from wavescalar.isa import LIMITS
from wavescalar.c.cleanup import drop_same_phis
from wavescalar.c.flow import ArraySpec, Block, Graph, Op, Operand, Var
from wavescalar.c.live import live_in
from wavescalar.c.order import natural_loops, reverse_postorder, sources_of
from wavescalar.c.rename import rename, users


@dataclass(eq=False)
class Loop:
    """A natural loop: its head, all its blocks, and those of them that lead out of it."""

    head: Block
    blocks: set[Block]
    exits: list[Block]


def keep(graph: Graph) -> None:
    """Stores and loads what loops only hand on."""
    order = reverse_postorder(graph.blocks[0], lambda block: block.targets)
    found = natural_loops(order, lambda block: block.targets)
    exits = {head: [block for block in order if block in blocks and not blocks.issuperset(block.targets)]
             for head, blocks in found.items()}
    loops = sorted((Loop(head, blocks, exits[head]) for head, blocks in found.items()), key=lambda loop: -len(loop.blocks))
    if loops:
        _Keeper(graph, order, loops).keep()
        drop_same_phis(graph)


class _Keeper:
    def __init__(self, graph: Graph, order: list[Block], loops: list[Loop]) -> None:
        self.graph, self.loops = graph, loops
        self.sources = sources_of(order, lambda block: block.targets)
        self.enters = live_in(order)
        self.home = {phi.result: block for block in order for phi in block.phis}
        self.home.update({op.result: block for block in order for op in block.ops if op.result})
        self.used = users(order)
        self.ranks = {var: rank for rank, var in enumerate(self.home)}
        self.first = len(graph.arrays)
        self.free = LIMITS[2].arrays - self.first
        self.kept = 0

    def keep(self) -> None:
        """Keeps each value across the largest loops that don't use it."""
        across: dict[Var, list[Loop]] = {}
        for loop in self.loops:
            used = set[Var]().union(*map(_used, loop.blocks))
            for var in self.enters[loop.head] - used:
                if not any(loop.blocks < larger.blocks for larger in across.get(var, ())):
                    across.setdefault(var, []).append(loop)
        for var in sorted(across, key=self.ranks.__getitem__):
            if self.kept < self.free * LIMITS[2].length:
                self._keep(var, across[var])
        for place in range(min(self.kept, self.free)):
            self.graph.arrays.append(ArraySpec("", -(-(self.kept - place) // self.free)))

    def _keep(self, var: Var, loops: list[Loop]) -> None:
        home, (cell, place) = self.home[var], divmod(self.kept, self.free)
        array = self.first + place
        defined: dict[Block, Var] = {home: var}
        for loop in loops:
            for block in self._landings(var, loop):
                if block not in defined:
                    defined[block] = Var(var.name)
                    block.ops.insert(0, Op("load", defined[block], [cell], array))
        if len(defined) == 1:
            return
        self.kept += 1
        store = Op("store", None, [cell, var], array)
        front = self._front(var, loops)
        if front:
            front.ops.append(store)
        else:
            home.ops.insert(next((k + 1 for k, op in enumerate(home.ops) if op.result is var), 0), store)
        rename(self.sources, var, defined, dict.fromkeys([*self.used.get(var, ()), *([front] if front else []), home]))

    def _front(self, var: Var, loops: list[Loop]) -> Block | None:
        """The block in front of a loop, where a value need not be stored on another path that takes it anyway."""
        fronts = [source for loop in loops for source in self.sources[loop.head] if source not in loop.blocks]
        if len(loops) != 1 or len(fronts) != 1 or fronts[0].exit != "go" or len(self.sources[fronts[0]]) != 1:
            return None
        front, above = fronts[0], self.sources[fronts[0]][0]
        others = [target for target in above.targets if target is not front]
        is_deeper = any(front in loop.blocks and self.home[var] not in loop.blocks for loop in self.loops)
        takes = any(var in self.enters[other] or any(phi.args[above] is var for phi in other.phis) for other in others)
        return front if takes and not is_deeper and front is not self.home[var] else None

    def _landings(self, var: Var, loop: Loop) -> list[Block]:
        """The blocks behind a loop that need a value; where others lead there too, new ones on the edges."""
        found: list[Block] = []
        for block in loop.exits:
            for target in list(block.targets):
                if target in loop.blocks or var not in self.enters[target]:
                    continue
                if any(source not in loop.blocks for source in self.sources[target]):
                    target = self._between(block, target)
                found.append(target)
        return list(dict.fromkeys(found))

    def _between(self, block: Block, target: Block) -> Block:
        made = Block(f"behind_{block.name}", exit="go", targets=[target])
        block.retarget(target, made)
        for phi in target.phis:
            phi.args[made] = phi.args.pop(block)
        self.sources[target] = [made if source is block else source for source in self.sources[target]]
        self.sources[made], self.enters[made] = [block], set(self.enters[target])
        for loop in self.loops:
            if block in loop.blocks and target in loop.blocks:
                loop.blocks.add(made)
        self.graph.blocks.append(made)
        return made


def _used(block: Block) -> set[Var]:
    """What a block's operations, its branch, and the phis behind it take."""
    parts: list[Operand] = [arg for op in block.ops for arg in op.args]
    parts += [block.selector] if block.exit == "if" else []
    parts += [phi.args[block] for target in block.targets for phi in target.phis]
    return {part for part in parts if isinstance(part, Var)}
