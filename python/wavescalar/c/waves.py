"""From a flow graph to a draft: values go to their uses, by steers where branches lie between, and by advances where
waves do.

A value that is used where it is computed, or in a block of the same wave that is passed exactly when that one is, goes
there directly. Else it is steered at each branch on its way, and joined where ways meet. All is made on demand: what
no use asks for isn't there. A constant is triggered by a token that is there anyway, so no pulse is carried along.
"""

from __future__ import annotations

import re
from typing import Union

from wavescalar.builder import ArrayHandle, BlockBuilder, Builder, Node, Result, Steer, Value
from wavescalar.image import Image
from wavescalar.isa import LIMITS
from wavescalar.c.cut import Cut, Wave, cut
from wavescalar.c.flow import Block, Graph, Op, Operand, Var
from wavescalar.c.share import share
from wavescalar.c.steps import step

Handle = tuple[Value, ...]  # the values of which one comes
ROOM = LIMITS[2].destinations - 1  # uses that a value of a draft has without a merge
FEW = 2  # a value that comes on several ways and has so many uses goes to each; one with more is merged first


def draft(graph: Graph, lines: bool = False) -> Image:
    """The draft of a flow graph; `link` makes it an image. lines: whether names of instructions tell their lines of C."""
    return _Emitter(graph, lines).builder.image()


class _Names:
    """Names for the assembly, each given once."""

    def __init__(self) -> None:
        self.given: dict[str, int] = {}

    def fresh(self, name: str) -> str:
        stem = re.sub(r"\W", "_", name, flags=re.ASCII)[:48] or "x"
        stem = f"_{stem}" if stem[0].isdigit() else stem
        made = stem
        while made in self.given:
            self.given[stem] += 1
            made = f"{stem}_{self.given[stem]}"
        self.given[made] = 0
        return made


class _Emitter:
    def __init__(self, graph: Graph, lines: bool) -> None:
        self.graph, self.lines = graph, lines
        self.cut: Cut = cut(graph)
        share(graph, self.cut)
        step(self.cut)
        self.cut.look()
        self.builder = Builder()
        self.names, self.block_names = _Names(), _Names()
        names = _Names()
        self.arrays: list[ArrayHandle] = [
            self.builder.array(names.fresh(it.name), it.cells) if it.name else self.builder.hidden(it.cells)
            for it in graph.arrays]
        self.places: dict[Block, BlockBuilder] = {}
        self.handles: dict[tuple[Union[Operand, None], Block], Handle] = {}
        self.steers: dict[Block, dict[Union[Operand, None], Steer]] = {block: {} for block in graph.blocks}
        self.tokens: dict[Block, list[Handle]] = {}  # for each class of blocks what comes to it when it is passed
        self.selectors: dict[Block, Result] = {}
        self.carried: dict[Wave, dict[Union[Var, None], Result]] = {}
        self.triggers: dict[Wave, Union[Var, None]] = {}
        self.waiting: list[tuple[Node, Block, Union[Block, None]]] = []  # for a token of a block, or of an edge
        self.uses = self._count_uses()
        self.ranks = self._first_uses()
        for wave in self.cut.waves:
            self._open(wave)
        for wave in self.cut.waves:
            for block in wave.blocks:
                self._fill(block)
        self._trigger()

    def _count_uses(self) -> dict[Var, int]:
        found: dict[Var, int] = {}
        for block in self.graph.blocks:
            parts = [arg for op in block.ops for arg in op.args] + [a for phi in block.phis for a in phi.args.values()]
            for arg in (*parts, block.selector):
                if isinstance(arg, Var):
                    found[arg] = found.get(arg, 0) + 1
        return found

    # Waves and their heads.

    def _open(self, wave: Wave) -> None:
        """The blocks of a wave, and an advance for each value that comes into it; one for a pulse where none does."""
        made = self.builder.wave()
        for block in wave.blocks:
            self.places[block] = made.block(self.block_names.fresh(block.name))
        head = self.places[wave.head]
        order = {phi.result: None for phi in wave.head.phis}
        order.update(dict.fromkeys(sorted(self.cut.enters[wave.head] - set(order), key=self.ranks.__getitem__)))
        carried: dict[Union[Var, None], Result] = {}
        if wave is self.cut.waves[0]:
            carried[None] = head.arrive(0, name=self.names.fresh("pulse"))
        for var in order:
            carried[var] = head.advance(name=self.names.fresh(var.name) if var.name else None)
        if not carried:
            carried[None] = head.advance(name=self.names.fresh("pulse"))
        self.carried[wave] = carried
        for key, advance in carried.items():
            self.handles[key, wave.head] = (advance,)
        widest = self._widest_first(wave)
        self.triggers[wave] = widest[0]
        self.tokens[wave.head] = [(carried[key],) for key in widest]

    def _first_uses(self) -> dict[Var, int]:
        """An order of variables that doesn't depend on where they lie in memory."""
        found: dict[Var, int] = {}
        for block in self.graph.blocks:
            parts: list[Union[Operand, None]] = [block.selector]
            for op in block.ops:
                parts += [*op.args, op.result]
            for phi in block.phis:
                parts += [phi.result, *phi.args.values()]
            for part in parts:
                if isinstance(part, Var):
                    found.setdefault(part, len(found))
        return found

    def _widest_first(self, wave: Wave) -> list[Union[Var, None]]:
        """What comes into a wave: first what is live in most of its blocks, and isn't computed anew in each turn."""
        computed = {phi.result for phi in wave.head.phis}
        return sorted(self.carried[wave], key=lambda key: (
            key is not None, -sum(key in self.cut.enters[block] for block in wave.blocks), key in computed))

    # Blocks.

    def _fill(self, block: Block) -> None:
        place = self.places[block]
        if block is not self.cut.wave[block].head:
            for phi in block.phis:
                ways = [self._over(phi.args[source], source, block) for source in self.cut.sources[block]]
                self.handles[phi.result, self.cut.same[block]] = self._joined(place, ways, self.uses[phi.result],
                                                                              phi.result.name)
        for op in block.ops:
            self._operation(op, block)
        self._leave(block)

    def _joined(self, place: BlockBuilder, ways: list[Handle], uses: int, name: str = "") -> Handle:
        values = tuple(value for way in ways for value in way)
        if len(values) == 1 or uses <= FEW:
            return values
        merged = place.merge(*values, name=self.names.fresh(name) if name else None)
        place.nodes.insert(0, place.nodes.pop())  # what wants it may stand there already
        return (merged,)

    def _operation(self, op: Op, block: Block) -> None:
        place = self.places[block]
        args = [self._at(arg, block) for arg in op.args]
        name = self._name(op)
        made: Union[Node, Result]
        if op.kind == "phi":
            made = place.phi(args[0], args[1], args[2], name)
        elif op.kind == "load":
            made = place.load(self.arrays[op.array or 0], args[0], name)
        elif op.kind == "store":
            made = place.store(self.arrays[op.array or 0], args[0], args[1], name)
        elif op.kind == "in":
            made = place.in_((), name)
            self.waiting.append((made, block, None))
        elif op.kind == "out":
            made = place.out(args[0], name)
        else:
            made = place.alu(op.kind, args[0], args[1], name)
        if op.result and isinstance(made, Result):
            self.handles[op.result, self.cut.same[block]] = (made,)

    def _name(self, op: Op) -> str | None:
        """That of C, where there is one; with its line behind it, where that is asked for."""
        name = op.result.name if op.result else ""
        if self.lines and op.place and op.place.line:
            return self.names.fresh(f"{name or op.kind}_L{op.place.line}")
        return self.names.fresh(name) if name else None

    def _leave(self, block: Block) -> None:
        place = self.places[block]
        if block.exit == "stop":
            self.waiting.append((place.halt(()), block, None))
            place.stop()
            return
        for target in block.targets:
            if self.cut.wave[target].head is target:
                self._carry(block, target)
        if block.exit == "go":
            place.go(self.places[block.targets[0]])
        else:
            yes, no = (self.places[target] for target in block.targets)
            place.if_(self._selector(block), yes, no)

    def _carry(self, block: Block, head: Block) -> None:
        """Sends what a wave takes in to its advances."""
        args = {phi.result: phi.args[block] for phi in head.phis}
        for key, advance in self.carried[self.cut.wave[head]].items():
            if key is None:
                self.waiting.append((advance, block, head))
            else:
                for value in self._over(args.get(key, key), block, head):
                    value.to(advance)

    # Values on their way.

    def _at(self, key: Operand, block: Block) -> Handle:
        """What brings a variable, or a constant, to a block."""
        first = self.cut.same[block]
        if (key, first) not in self.handles:
            if isinstance(key, int):
                constant = self.places[block].const(key, ())
                self.waiting.append((constant, block, None))
                self.handles[key, first] = (constant,)
            else:
                self.handles[key, first] = self._brought(key, first)
        return self.handles[key, first]

    def _brought(self, key: Union[Var, None], block: Block) -> Handle:
        sources = self.cut.sources[block]
        ways = [self._over(key, source, block) for source in sources]
        uses = self.uses.get(key, FEW) if key is not None else FEW
        handle = self._joined(self.places[block], ways, uses)
        self.tokens.setdefault(block, []).append(handle)
        return handle

    def _over(self, key: Union[Operand, None], source: Block, target: Block) -> Handle:
        """What brings it over an edge."""
        if source.exit == "go":
            return self._at_or_token(key, source)
        return (self._side(self._steer(key, source), source, target),)

    def _at_or_token(self, key: Union[Operand, None], block: Block) -> Handle:
        if key is not None:
            return self._at(key, block)
        first = self.cut.same[block]
        if (None, first) not in self.handles:
            self.handles[None, first] = self._brought(None, first)
        return self.handles[None, first]

    @staticmethod
    def _side(steer: Steer, source: Block, target: Block) -> Value:
        return steer.yes if source.targets[0] is target else steer.no

    def _steer(self, key: Union[Operand, None], block: Block) -> Steer:
        steers = self.steers[block]
        if key not in steers:
            handle = self._at_or_token(key, block)
            steers[key] = self.places[block].steer(handle, self._selector(block))
        return steers[key]

    def _selector(self, block: Block) -> Result:
        """The result of an instruction of this block by which it branches."""
        if block not in self.selectors:
            place, handle = self.places[block], self._at(block.selector, block)
            own = handle[0]
            if len(handle) != 1 or not isinstance(own, Result) or own not in (*place.nodes, *place.advances):
                own = place.merge(*handle)
            self.selectors[block] = own
        return self.selectors[block]

    # Triggers. They are looked for last: then it is known what goes to a block anyway.

    def _trigger(self) -> None:
        """Gives what waits for a token one."""
        for node, block, head in self.waiting:
            for value in self._edge_token(block, head) if head else self._token(block):
                value.to(node)
        for block in self.graph.blocks:
            if not self.places[block].nodes and not self.places[block].advances:
                self._make_triggerable(block)

    def _make_triggerable(self, block: Block) -> None:
        """`wsl` may put a `nop` into a block without an instruction, for which something has to be there."""
        sources = self.cut.sources[block]
        if len(sources) == 1 and sources[0].exit == "if":
            self._token(block)
        else:
            self.places[block].merge(*self._token(block))

    def _token(self, block: Block) -> Handle:
        """A value that comes whenever a block is passed."""
        first = self.cut.same[block]
        if first in self.tokens:
            return _least_used(self.tokens[first])
        sources = self.cut.sources[first]
        if len(sources) == 1:
            return self._edge_token(sources[0], first)
        return self._at_or_token(self.triggers[self.cut.wave[first]], first)

    def _edge_token(self, source: Block, target: Block) -> Handle:
        """A value that comes over an edge: one that is steered there anyway, where there is one."""
        if source.exit == "go":
            return self._token(source)
        steered = [self._side(steer, source, target) for steer in self.steers[source].values()]
        if steered:
            return _least_used([(value,) for value in steered])
        return self._over(self.triggers[self.cut.wave[source]], source, target)


def _least_used(handles: list[Handle]) -> Handle:
    """The first whose values have room for a use more, so that no merge has to spread them; else the one with the fewest."""
    counts = [max(len(value.uses) for value in handle) for handle in handles]
    return handles[next((k for k, count in enumerate(counts) if count < ROOM), counts.index(min(counts)))]
