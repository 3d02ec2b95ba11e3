"""Cuts a flow graph into waves, and finds what comes into each.

A wave begins at the entry, where an edge leads back, and where edges of several waves meet; all else belongs to the
wave of what leads to it. Inside a wave there is no loop, and it is entered at its head alone.
"""

from __future__ import annotations

from dataclasses import dataclass, field

from wavescalar.c.flow import Block, Graph, Var
from wavescalar.c.live import live_in
from wavescalar.c.order import dominators, reverse_postorder


@dataclass(eq=False)
class Wave:
    """The blocks of a wave, each behind those that lead to it; the head is the first."""

    head: Block
    blocks: list[Block] = field(default_factory=list)


@dataclass(eq=False)
class Cut:
    """A graph in waves.

    waves: in reverse postorder of their heads.
    wave: that of each block.
    sources: the blocks of the same wave that lead to a block; none for a head.
    same: for each block the first one of its wave that is passed exactly when it is.
    enters: for each block the variables that are live at its head, without those of its phis; `look` finds them.
    """

    waves: list[Wave]
    wave: dict[Block, Wave]
    sources: dict[Block, list[Block]]
    same: dict[Block, Block]
    enters: dict[Block, set[Var]] = field(default_factory=dict)

    def look(self) -> None:
        """Finds what is live, as the operations are now."""
        self.enters = live_in([block for wave in self.waves for block in wave.blocks])


def cut(graph: Graph) -> Cut:
    """The waves of a graph, into which blocks are put where a branch's edge has to have one of its own."""
    order = reverse_postorder(graph.blocks[0], lambda block: block.targets)
    waves, of = waves_of(order)
    order = _split(order, of)
    graph.blocks = order
    for block in order:
        if block is not of[block].head:
            of[block].blocks.append(block)
    sources: dict[Block, list[Block]] = {block: [] for block in order}
    for block in order:
        for target in block.targets:
            if of[target].head is not target:
                sources[target].append(block)
    same: dict[Block, Block] = {}
    for wave in waves:
        same.update(_equivalent(wave, sources))
    made = Cut(waves, of, sources, same)
    made.look()
    return made


def waves_of(order: list[Block]) -> tuple[list[Wave], dict[Block, Wave]]:
    """The waves of blocks in reverse postorder, with their heads alone, and that of each block."""
    place = {block: k for k, block in enumerate(order)}
    into: dict[Block, list[Block]] = {block: [] for block in order}
    for block in order:
        for target in block.targets:
            into[target].append(block)
    waves: list[Wave] = []
    of: dict[Block, Wave] = {}
    for block in order:
        found = {of.get(source) for source in into[block]}
        wave = found.pop() if len(found) == 1 and all(place[s] < place[block] for s in into[block]) else None
        if wave is None:
            wave = Wave(block, [block])
            waves.append(wave)
        of[block] = wave
    return waves, of


def _split(order: list[Block], of: dict[Block, Wave]) -> list[Block]:
    """A branch leads to two heads, or to two blocks of its wave that no other edge enters (docs/BACKEND.md, `arm`)."""
    into: dict[Block, int] = {}
    for block in order:
        for target in block.targets:
            into[target] = into.get(target, 0) + 1
    made: list[Block] = []
    for block in order:
        made.append(block)
        if block.exit != "if" or all(of[target].head is target for target in block.targets):
            continue
        for target in list(block.targets):
            if of[target].head is target or into[target] > 1:
                arm = Block(f"to_{target.name}", exit="go", targets=[target])
                block.retarget(target, arm)
                of[arm] = of[block]
                for phi in target.phis:
                    phi.args[arm] = phi.args.pop(block)
                made.append(arm)
    return made


def _equivalent(wave: Wave, sources: dict[Block, list[Block]]) -> dict[Block, Block]:
    """For each block of a wave the first one that is passed exactly when it is: which it postdominates."""
    inside = set(wave.blocks)
    place = {block: k for k, block in enumerate(wave.blocks)}
    above = dominators(wave.blocks, lambda block: sources[block])
    # Postdominators: the same from the exits, which all lead to the node None.
    ends = [block for block in wave.blocks if not block.targets
            or any(target not in inside or target is wave.head for target in block.targets)]

    leaves = set(ends)

    def back(node: Block | None) -> list[Block]:
        return ends if node is None else sources[node]

    def forth(node: Block | None) -> list[Block | None]:
        if node is None:
            return []
        found: list[Block | None] = [t for t in node.targets if t in inside and t is not wave.head]
        return [*found, None] if node in leaves else found

    below = dominators(reverse_postorder(None, back), forth)
    same: dict[Block, Block] = {wave.head: wave.head}
    for block in sorted(wave.blocks[1:], key=place.__getitem__):
        over = above[block]
        behind = below.get(over)
        while behind is not None and behind is not block and place[behind] < place[block]:
            behind = below.get(behind)
        same[block] = same[over] if behind is block else block
    return same
