"""Which variables are live at the heads of blocks."""

from __future__ import annotations

from collections.abc import Sequence

from wavescalar.c.flow import Block, Var


def live_in(order: Sequence[Block]) -> dict[Block, set[Var]]:
    """For each block the variables that are live at its head, without those of its phis.

    order: the blocks, for speed in reverse postorder. What a phi takes from a block is live at that block's end.
    """
    uses: dict[Block, set[Var]] = {}
    makes: dict[Block, set[Var]] = {}
    for block in order:
        made = {phi.result for phi in block.phis}
        used: set[Var] = set()
        for op in block.ops:
            used |= {arg for arg in op.args if isinstance(arg, Var) and arg not in made}
            if op.result:
                made.add(op.result)
        if isinstance(block.selector, Var) and block.exit == "if" and block.selector not in made:
            used.add(block.selector)
        for target in block.targets:
            used |= {arg for phi in target.phis if isinstance(arg := phi.args[block], Var) and arg not in made}
        uses[block], makes[block] = used, made
    enters = {block: set(uses[block]) for block in order}
    changed = True
    while changed:
        changed = False
        for block in reversed(order):
            found = set(uses[block])
            for target in block.targets:
                found |= enters[target] - {phi.result for phi in target.phis}
            found -= makes[block]
            if found != enters[block]:
                enters[block], changed = found, True
    return enters
