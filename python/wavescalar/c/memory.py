"""Memory as the machine has it: arrays for regions, and what loads, stores, addresses, copies and fills come to."""

from __future__ import annotations

from collections.abc import Callable

from wavescalar.isa import LIMITS
from wavescalar.c import arith
from wavescalar.c.cells import Layout
from wavescalar.c.faults import Refusal
from wavescalar.c.flow import ArraySpec, Block, Code, Operand as Word, Phi, Var
from wavescalar.c.ir import Instr, Local, Module, Operand, Type
from wavescalar.c.objects import Region
from wavescalar.c.words import Words

UNROLLED = 8  # cells that are copied or filled one by one, without a loop
SPARE = 4  # arrays that are left for hidden cells
PLACES = LIMITS[2].length  # the greatest number that a pointer to an object, or behind it, has
UNKNOWN = "a pointer to no array that is known here"


class Memory(Words):
    """Lowers what has to do with memory. What isn't 0 at the start is stored first."""

    def __init__(self, module: Module) -> None:
        super().__init__(module)
        self.transfers: dict[int, list[Word]] = {}  # the cells of loads that are only stored
        self.arrays = self._arrays()
        self._start()

    def _arrays(self) -> dict[Region, tuple[int, int]]:
        """For each region with a layout its array, from 0, and the cell at which it begins.

        Where there are more regions than arrays, the smallest share one.
        """
        layouts = sorted(self.layouts.of.values(), key=lambda layout: -layout.cells)
        own = layouts if len(layouts) <= LIMITS[2].arrays - SPARE else layouts[: LIMITS[2].arrays - SPARE - 1]
        found: dict[Region, tuple[int, int]] = {}
        for layout in self.layouts.of.values():
            if layout in own:
                found[layout.region] = len(self.graph.arrays), 0
                self.graph.arrays.append(ArraySpec("_".join(thing.name for thing in layout.region.objects[:3]),
                                                   layout.cells))
        rest = [layout for layout in layouts if layout.region not in found]
        if rest:
            cells = 0
            for layout in rest:
                found[layout.region] = len(self.graph.arrays), cells
                cells += layout.cells
            self.graph.arrays.append(ArraySpec("small", cells))
            if cells > LIMITS[2].length:
                raise Refusal(f"{len(layouts)} objects, which don't fit into {LIMITS[2].arrays} arrays")
        return found

    def _start(self) -> None:
        """Stores what isn't 0 at the start."""
        for layout in self.layouts.of.values():
            array, base = self.arrays[layout.region]
            for cell, value in sorted(layout.start.items()):
                if layout.region in self.signs.regions and layout.sizes[cell] < 8:
                    value = arith.extended_constant(value, 8 * layout.sizes[cell])
                self.code.store(array, base + cell, value)

    def _memory(self, pointer: Operand, it: Instr) -> tuple[Layout, int, Word]:
        """The layout into which a pointer points, the array, and the cell."""
        layout = self.layouts.layout(pointer)
        if layout is None:
            raise it.refused(UNKNOWN)
        array, base = self.arrays[layout.region]
        return layout, array, self.code.alu("add", self.word(pointer), base)

    def _cell(self, index: Word, part: int) -> Word:
        return self.code.alu("add", index, part)

    def do_load(self, it: Instr) -> Word | None:
        layout, array, index = self._memory(it.operands[0], it)
        size = it.type.bytes
        if it.number in self.objects.transfers:
            self.transfers[it.number] = [self.code.load(array, self._cell(index, part))
                                         for part in range(size // layout.granule)]
            return None
        result: Word = 0
        for part in range(self._known_parts(layout, it.type)):
            word = self.code.load(array, self._cell(index, part), it.name)
            result = self.code.alu("or", result, self.code.alu("shl", word, part * layout.part_bits))
        return result

    def do_store(self, it: Instr) -> None:
        layout, array, index = self._memory(it.operands[1], it)
        source = it.operands[0]
        if isinstance(source, Local) and source.number in self.transfers:
            for part, word in enumerate(self.transfers[source.number]):
                self.code.store(array, self._cell(index, part), word)
            return
        form = self.extended if it.number in self.signs.accesses else self.clean
        value, size = form(it.operands[0], it.widths[0]), it.types[0].bytes
        parts, known = layout.parts(size), self._known_parts(layout, it.types[0])
        for part in range(parts):
            word = value if part < known else 0
            if known > 1:
                word = arith.clean(self.code, self.code.alu("shr", word, part * layout.part_bits), layout.part_bits)
            self.code.store(array, self._cell(index, part), word)

    def _known_parts(self, layout: Layout, own: Type) -> int:
        """How many of the cells of an access hold what isn't surely 0. A pointer of which no number is made is the place
        of a cell, or of the one behind the last."""
        parts = layout.parts(own.bytes)
        if own.kind != "ptr" or parts == 1 or layout.region.content() in self.objects.counted:
            return parts
        return -(-PLACES.bit_length() // layout.part_bits)

    def do_alloca(self, it: Instr) -> Word:
        layout = self.layouts.layout(Local(it.number))
        return layout.cell_of(self.objects.locals[it.number].start) if layout else 0

    def do_getelementptr(self, it: Instr) -> Word:
        element, layout = it.element, self.layouts.layout(Local(it.number))
        if element is None or layout is None:
            raise it.refused(UNKNOWN)
        alu = self.code.alu
        word = self.word(element.base)
        for index, stride in element.indices:
            width = next(own.width for operand, own in zip(it.operands, it.types) if operand == index)
            number = self.extended(index, width)
            word = alu("add", word, alu("mul", number, layout.cell_of(stride)))
        return alu("add", word, layout.cell_of(element.offset) % (1 << 64))

    def copy(self, it: Instr) -> None:
        """`llvm.memcpy` or `llvm.memmove`, cell by cell; from the end where the target lies behind the source."""
        layout, array, target = self._memory(it.operands[0], it)
        _, _, source = self._memory(it.operands[1], it)
        count = self._granules(it, layout)
        if isinstance(count, int) and count <= UNROLLED:
            words = [self.code.load(array, self._cell(source, k)) for k in range(count)]
            for k, word in enumerate(words):
                self.code.store(array, self._cell(target, k), word)
            return
        alu, code = self.code.alu, self.code
        if (it.callee or "").startswith("llvm.memmove."):
            down = alu("lt", source, target)
            last = alu("sub", count, 1)
            step: Word = code.choose(down, arith.ALL, 1)
            source = code.choose(down, alu("add", source, last), source)
            target = code.choose(down, alu("add", target, last), target)
        else:
            step = 1

        def turn(at: Word, _: Word) -> None:
            offset = self.code.alu("mul", at, step)
            word = self.code.load(array, self.code.alu("add", source, offset))
            self.code.store(array, self.code.alu("add", target, offset), word)

        self._loop(count, turn)

    def fill(self, it: Instr) -> None:
        """`llvm.memset`."""
        layout, array, target = self._memory(it.operands[0], it)
        count = self._granules(it, layout)
        value = self.clean(it.operands[1], 8)
        if value != 0:
            value = self.code.alu("mul", value, sum(1 << 8 * k for k in range(layout.granule)))
        if isinstance(count, int) and count <= UNROLLED:
            for k in range(count):
                self.code.store(array, self._cell(target, k), value)
            return
        self._loop(count, lambda at, word: self.code.store(array, self.code.alu("add", target, at), value))

    def _granules(self, it: Instr, layout: Layout) -> Word:
        return self.code.alu("div", self.clean(it.operands[2], it.widths[2]), layout.granule)

    def _loop(self, count: Word, turn: Callable[[Word, Word], None]) -> None:
        """Does `turn` with 0, 1, .. up to a count, which may be 0; what comes then stands in a new block."""
        before, body, after = self.code.block, Block("copy"), Block("copied")
        self.code.branch(count, body, after)
        self.graph.blocks += [body, after]
        at = Var("at")
        self.code = Code(body, self.code.place)
        turn(at, 0)
        further = self.code.alu("add", at, 1)
        body.phis.append(Phi(at, {before: 0, body: further}))
        self.code.branch(self.code.alu("ne", further, count), body, after)
        self.code = Code(after, self.code.place)
