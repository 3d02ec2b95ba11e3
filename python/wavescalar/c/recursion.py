"""Calls that can't be inlined, since functions call themselves: they become jumps, with a stack in arrays.

Such functions stay beside `main`, each once. A call stores the values that are used behind it, each in an array of its
own at the depth of the call, and its number in the array of the function's returns; then it jumps to the function,
whose parameters are phis. A return jumps to the calls that may have come there, by their number, which load what they stored.
"""

from __future__ import annotations

from collections.abc import Iterator
from dataclasses import dataclass

from wavescalar.c.ir import Address, Element, Global, Instr, Int, IrBlock, Local, Module, Operand, Type, Undefined
from wavescalar.c.objects import ALIGN

DEPTH = 1024  # calls inside of one another; deeper ones are index faults
MOST = 65_536  # bytes that the places of a local array take, which are as many cells at most
LONG = Type("int", 64)
BIT = Type("int", 1)
POINTER = Type("ptr", 64)
VOID = Type("void")


@dataclass(eq=False)
class _Site:
    """A call: the function in which it stands and that which it calls, the blocks before and behind."""

    call: Instr
    caller: str
    callee: str
    before: IrBlock
    behind: IrBlock


def unfold(module: Module) -> None:
    """Replaces calls of functions in a module. Raises Refusal where a function has a local array that is too long."""
    if len(module.entries) > 1:
        _Unfold(module).unfold()


def _locals(it: Instr) -> Iterator[int]:
    """The numbers of the results that an instruction uses."""
    parts = [*it.operands, *([it.element.base, *(index for index, _ in it.element.indices)] if it.element else [])]
    return (part.number for part in parts if isinstance(part, Local))


class _Unfold:
    def __init__(self, module: Module) -> None:
        self.module, self.blocks = module, module.blocks
        self.next = len(module.instrs)
        self.owner = self._owners()
        self.types = {it.number: it for it in module.instrs}
        self.same: dict[int, Operand] = {}
        self.sites: list[_Site] = []
        self.depths: dict[str, int] = {}  # of each function but main the phi of its depth
        self.frames: dict[str, int] = {}  # how deep functions with local arrays may be called

    def _owners(self) -> dict[int, str]:
        """The function of each block."""
        found: dict[int, str] = {}
        starts = sorted((number, name) for name, number in self.module.entries.items())
        for (number, name), (end, _) in zip(starts, [*starts[1:], (len(self.blocks), "")]):
            found.update(dict.fromkeys(range(number, end), name))
        return found

    def unfold(self) -> None:
        """Does all."""
        for it in self.module.instrs:
            if it.op == "call" and it.callee in self.module.params and "..." in it.text.split("@")[0]:
                raise it.refused(f"{it.callee} has a variable number of arguments")
        self._split()
        live = self._live()
        self._open_entries()
        self._spread()
        returns = self._returns()
        saved: dict[int, dict[int, Local]] = {}  # for each value, by blocks, what is loaded there
        for site in self.sites:
            depth = self._call(site)
            for number in sorted(live[site.behind.number]):
                saved.setdefault(number, {})[site.behind.number] = self._save(site, number, depth, returns[site.callee])
            if site.caller != "main":
                operands = returns[site.callee], Int(1, 64)
                own = self._made(site.behind, site.call, "sub", operands, (LONG, LONG), LONG, 0)
                saved.setdefault(self.depths[site.caller], {})[site.behind.number] = own
        self._rename(saved)
        self.module.number_again(self.same)
        self.module.entries, self.module.params = {"main": 0}, {}

    # Making instructions.

    def _new(self, like: Instr, op: str, operands: tuple[Operand, ...], types: tuple[Type, ...], own: Type,
             blocks: tuple[int, ...] = (), predicate: str = "") -> Instr:
        self.next += 1
        made = Instr(self.next - 1, op, own, operands, types, like.place, like.text, predicate, blocks=blocks)
        self.types[made.number] = made
        return made

    def _made(self, block: IrBlock, like: Instr, op: str, operands: tuple[Operand, ...], types: tuple[Type, ...],
              own: Type, at: int) -> Local:
        """A new instruction at a place of a block, or in front of its end where that is -1."""
        made = self._new(like, op, operands, types, own)
        block.instrs.insert(at if at >= 0 else len(block.instrs) - 1, made)
        return Local(made.number)

    def _block(self, name: str, owner: str) -> IrBlock:
        made = IrBlock(len(self.blocks), name)
        self.blocks.append(made)
        self.owner[made.number] = owner
        return made

    def _array(self, name: str, size: int, like: Instr) -> str:
        """A new object of so many bytes."""
        while name in self.module.globals:
            name += "_"
        self.module.globals[name] = Global(name, size, (), like.place)
        return name

    def _cell(self, like: Instr, array: str, stride: int, index: Operand) -> Instr:
        """The address of a cell of an array."""
        made = self._new(like, "getelementptr", (Address(array, 0), index), (POINTER, LONG), POINTER)
        made.element = Element(Address(array, 0), 0, ((index, stride),))
        return made

    # Calls and returns.

    def _split(self) -> None:
        """Parts blocks behind calls. Until all is joined, the end of the block before leads to that behind."""
        for number in list(self.owner):
            block = self.blocks[number]
            k = 0
            while k < len(block.instrs):
                it = block.instrs[k]
                if it.op != "call" or it.callee not in self.module.params:
                    k += 1
                    continue
                behind = self._block(f"behind_{it.callee}", self.owner[number])
                behind.instrs = block.instrs[k + 1:]
                for target in behind.targets:
                    for phi in self.blocks[target].instrs:
                        if phi.op == "phi":
                            phi.blocks = tuple(behind.number if b == block.number else b for b in phi.blocks)
                block.instrs = [*block.instrs[:k], self._new(it, "br", (), (), VOID, (behind.number,))]
                self.sites.append(_Site(it, self.owner[number], it.callee, block, behind))
                block, k = behind, 0

    def _live(self) -> dict[int, set[int]]:
        """For each block the results that are used in it or behind it, and computed before."""
        makes = {block.number: {it.number for it in block.instrs} for block in self.blocks}
        uses: dict[int, set[int]] = {}
        ends: dict[int, set[int]] = {block.number: set() for block in self.blocks}
        for site in self.sites:
            ends[site.before.number].update(_locals(site.call))
        for block in self.blocks:
            found: set[int] = set()
            for it in block.instrs:
                if it.op == "phi":
                    for operand, source in zip(it.operands, it.blocks):
                        if isinstance(operand, Local):
                            ends[source].add(operand.number)
                else:
                    found |= set(_locals(it))
            uses[block.number] = found
        results = {site.behind.number: site.call.number for site in self.sites}
        for number, result in results.items():
            makes[number].add(result)
        enters: dict[int, set[int]] = {block.number: set() for block in self.blocks}
        changed = True
        while changed:
            changed = False
            for block in reversed(self.blocks):
                found = uses[block.number] | ends[block.number]
                for target in block.targets:
                    found |= enters[target]
                found -= makes[block.number]
                if found != enters[block.number]:
                    enters[block.number], changed = found, True
        return enters

    def _open_entries(self) -> None:
        """Parameters and depths become phis of the first block, to which nothing but calls leads."""
        for name, numbers in self.module.params.items():
            if name == "main":
                continue
            first = self.blocks[self.module.entries[name]]
            like = first.instrs[0]
            depth = self._new(like, "phi", (), (), LONG)
            self.depths[name] = depth.number
            for it in first.instrs[: len(numbers)]:
                it.op = "phi"
            first.instrs.insert(0, depth)

    def _spread(self) -> None:
        """Gives local arrays a place for each depth, in a global object; deeper calls are index faults."""
        for block in self.blocks:
            name = self.owner[block.number]
            for it in block.instrs:
                if it.op != "alloca" or name == "main":
                    continue
                if it.size == 0:
                    raise it.refused("an array whose length isn't known when it is compiled")
                stride = -(-it.size // ALIGN) * ALIGN
                frames = min(DEPTH, MOST // stride)
                if frames < 2:
                    raise it.refused(f"{name} is recursive, and has a local array of {it.size} bytes")
                self.frames[name] = min(frames, self.frames.get(name, DEPTH))
                array = self._array(f"{it.name or 'local'}_{name}", stride * frames, it)
                depth = Local(self.depths[name])
                it.op, it.operands, it.types = "getelementptr", (Address(array, 0), depth), (POINTER, LONG)
                it.element = Element(Address(array, 0), 0, ((depth, stride),))

    def _call(self, site: _Site) -> Operand:
        """Leads a call to its function; the depth of what is called."""
        like, before = site.call, site.before
        depth: Operand = Int(1, 64)
        if site.caller != "main":
            operands = Local(self.depths[site.caller]), Int(1, 64)
            depth = self._made(before, like, "add", operands, (LONG, LONG), LONG, -1)
        number = [other for other in self.sites if other.callee == site.callee].index(site)
        cell = self._cell(like, f"returns_{site.callee}", 8, depth)
        given = Int(number, 64), Local(cell.number)
        before.instrs[-1:-1] = [cell, self._new(like, "store", given, (LONG, POINTER), VOID)]
        entry = self.blocks[self.module.entries[site.callee]]
        before.instrs[-1].blocks = (entry.number,)
        count = len(self.module.params[site.callee])
        for phi, operand in zip(entry.instrs[: 1 + count], [depth, *like.operands, *([Undefined()] * count)]):
            phi.operands, phi.types = (*phi.operands, operand), (*phi.types, phi.type)
            phi.blocks = (*phi.blocks, before.number)
        return depth

    def _returns(self) -> dict[str, Local]:
        """For each function a block to which its returns lead, and from which it goes on; the depth there."""
        found: dict[str, Local] = {}
        for name in self.depths:
            own = [block for block in self.blocks if self.owner[block.number] == name]
            exits = [block for block in own if block.instrs[-1].op == "ret"]
            sites = [site for site in self.sites if site.callee == name]
            like = sites[0].call
            made = self._block(f"return_{name}", name)
            sources = tuple(block.number for block in exits)
            depths = (Local(self.depths[name]),) * len(exits)
            depth = self._new(like, "phi", depths, (LONG,) * len(exits), LONG, sources)
            made.instrs.append(depth)
            if like.type.kind != "void":
                values = tuple(block.instrs[-1].operands[0] for block in exits)
                result = self._new(like, "phi", values, (like.type,) * len(exits), like.type, sources)
                made.instrs.append(result)
                self.same.update({site.call.number: Local(result.number) for site in sites})
            for block in exits:
                block.instrs[-1] = self._new(block.instrs[-1], "br", (), (), VOID, (made.number,))
            array = self._array(f"returns_{name}", 8 * self.frames.get(name, DEPTH), like)
            assert array == f"returns_{name}"
            cell = self._cell(like, array, 8, Local(depth.number))
            number = self._new(like, "load", (Local(cell.number),), (POINTER,), LONG)
            made.instrs += [cell, number]
            self._lead(made, name, sites, Local(number.number))
            found[name] = Local(depth.number)
        return found

    def _lead(self, here: IrBlock, name: str, sites: list[_Site], number: Operand) -> None:
        """Goes on behind the call of this number."""
        for k, site in enumerate(sites[:-1]):
            like = site.call
            further = self._block(f"return_{name}", name)
            test = self._new(like, "icmp", (number, Int(k, 64)), (LONG, LONG), BIT, predicate="eq")
            here.instrs += [test, self._new(like, "br", (Local(test.number),), (BIT,), VOID,
                                            (site.behind.number, further.number))]
            here = further
        here.instrs.append(self._new(sites[-1].call, "br", (), (), VOID, (sites[-1].behind.number,)))

    def _save(self, site: _Site, number: int, depth: Operand, later: Local) -> Local:
        """Stores a value before a call and loads it behind; what is loaded."""
        own = self.types[number].type
        stride = -(-own.bytes // 8) * 8
        array = f"saved_{number}"
        if array not in self.module.globals:
            self._array(array, stride * (2 if site.caller == "main" else DEPTH), site.call)
        cell = self._cell(site.call, array, stride, depth)
        site.before.instrs[-1:-1] = [cell, self._new(site.call, "store", (Local(number), Local(cell.number)),
                                                     (own, POINTER), VOID)]
        cell = self._cell(site.call, array, stride, later)
        loaded = self._new(site.call, "load", (Local(cell.number),), (POINTER,), own)
        loaded.name = self.types[number].name
        site.behind.instrs[:0] = [cell, loaded]
        return Local(loaded.number)

    # Each use gets the definition that comes to it (Braun and others, Compiler Construction 2013).

    def _rename(self, saved: dict[int, dict[int, Local]]) -> None:
        sources: dict[int, list[int]] = {block.number: [] for block in self.blocks}
        for block in self.blocks:
            for target in block.targets:
                sources[target].append(block.number)
        for site in self.sites:
            sources[site.behind.number] = []
        homes = {it.number: block.number for block in self.blocks for it in block.instrs}
        homes.update({site.call.number: site.behind.number for site in self.sites})
        users: dict[int, list[tuple[IrBlock, Instr]]] = {}
        for block in self.blocks:
            for it in block.instrs:
                for number in set(_locals(it)):
                    if number in saved:
                        users.setdefault(number, []).append((block, it))
        for number, loads in saved.items():
            ends: dict[int, Operand] = {homes[number]: Local(number), **loads}
            self._rename_one(number, ends, users.get(number, []), sources, loads)

    def _rename_one(self, number: int, ends: dict[int, Operand], users: list[tuple[IrBlock, Instr]],
                    sources: dict[int, list[int]], loads: dict[int, Local]) -> None:
        own = Local(number)
        home = next(block for block, value in ends.items() if value == own)

        def end(block: int) -> Operand:
            """What the value is at a block's end, or anywhere in a block that doesn't make it."""
            path: list[int] = []
            while block not in ends and len(sources[block]) == 1:
                path.append(block)
                block = sources[block][0]
            if block not in ends and not sources[block]:
                ends[block] = Undefined()
            if block not in ends:
                phi = self._new(self.types[number], "phi", (), (), self.types[number].type)
                phi.name = self.types[number].name
                ends[block] = Local(phi.number)
                ways = [end(source) for source in sources[block]]
                phi.operands, phi.types = tuple(ways), (phi.type,) * len(ways)
                phi.blocks = tuple(sources[block])
                self.blocks[block].instrs.insert(0, phi)
            for passed in path:
                ends[passed] = ends[block]
            return ends[block]

        for block, it in users:
            if it.op == "phi":
                it.operands = tuple(end(source) if operand == own else operand
                                    for operand, source in zip(it.operands, it.blocks))
                continue
            value = own if block.number == home and block.number not in loads else end(block.number)
            if value != own:
                it.operands = tuple(value if operand == own else operand for operand in it.operands)
                if it.element:
                    element = it.element
                    indices = tuple((value if index == own else index, stride) for index, stride in element.indices)
                    it.element = Element(value if element.base == own else element.base, element.offset, indices)
