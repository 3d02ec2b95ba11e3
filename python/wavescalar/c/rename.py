"""Gives each use of a variable the definition that comes to it (Braun and others, Compiler Construction 2013)."""

from __future__ import annotations

from collections.abc import Collection, Iterable, Mapping

from wavescalar.c.flow import Block, Operand, Phi, Var


def users(blocks: Iterable[Block]) -> dict[Var, list[Block]]:
    """The blocks whose operations, branches or phis take each variable."""
    found: dict[Var, dict[Block, None]] = {}
    for block in blocks:
        parts: list[Operand] = [arg for op in block.ops for arg in op.args] + [block.selector]
        for part in (*parts, *(arg for phi in block.phis for arg in phi.args.values())):
            if isinstance(part, Var):
                found.setdefault(part, {})[block] = None
    return {var: list(own) for var, own in found.items()}


def rename(sources: Mapping[Block, list[Block]], var: Var, defined: Mapping[Block, Var], used: Iterable[Block],
           apart: Collection[Block] = frozenset()) -> None:
    """Renames a variable in operations, branches and phis, and puts phis where definitions meet.

    sources: the blocks that lead to each. defined: what the variable is called at the ends of blocks that define it.
    used: the blocks that take it. apart: blocks in which nothing is renamed.
    """
    _Renaming(sources, var, defined, apart).rename(used)


class _Renaming:
    def __init__(self, sources: Mapping[Block, list[Block]], var: Var, defined: Mapping[Block, Var],
                 apart: Collection[Block]) -> None:
        self.sources, self.var, self.ends, self.apart = sources, var, dict(defined), apart

    def rename(self, used: Iterable[Block]) -> None:
        for block in [block for block in used if block not in self.apart]:
            old = list(block.phis)
            if any(self.var in op.args for op in block.ops) or block.selector is self.var:
                own = self._end(block)
                for op in block.ops:
                    op.args = [own if arg is self.var else arg for arg in op.args]
                block.selector = own if block.selector is self.var else block.selector
            for phi in old:
                for source, arg in phi.args.items():
                    if arg is self.var and source not in self.apart:
                        phi.args[source] = self._end(source)

    def _end(self, block: Block) -> Var:
        """What the variable is at a block's end."""
        path: list[Block] = []
        while block not in self.ends and len(self.sources[block]) == 1:
            path.append(block)
            block = self.sources[block][0]
        if block not in self.ends:
            self.ends[block] = made = Var(self.var.name)
            phi = Phi(made, {})
            block.phis.append(phi)
            for source in self.sources[block]:
                phi.args[source] = self._end(source)
        for passed in path:
            self.ends[passed] = self.ends[block]
        return self.ends[block]
