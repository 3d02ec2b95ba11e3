"""How the bytes of a region become the cells of an array.

A pointer into a region counts *granules*: as many bytes as all its pointers' offsets are multiples of. Where no two
accesses overlap in part, a cell holds what one access holds, however many bytes that are (*whole* cells, at the granule
where it begins). Else the granule divides all sizes too, and an access takes several cells, the lowest byte first.
"""

from __future__ import annotations

from collections.abc import Iterable
from dataclasses import dataclass, field
from math import gcd

from wavescalar.isa import LIMITS
from wavescalar.c.faults import Refusal
from wavescalar.c.ir import Address, Expression, Global, Instr, Int, Local, Operand, within
from wavescalar.c.objects import COPIES, FILLS, Congruence, Object, Objects, Region, moved, multiple

Access = tuple[int, int, int]  # modulus, remainder and size, in bytes
ROUNDS = 8  # copies carry accesses from place to place; regions where that goes on longer get cells of granules


def overlap(one: Access, other: Access) -> bool:
    """Whether two accesses may overlap without being the same."""
    modulus, apart = gcd(one[0], other[0]), other[1] - one[1]
    if modulus:
        apart = apart % modulus - -(-other[2] // modulus) * modulus
    while apart < one[2]:
        if -other[2] < apart and not (apart == 0 and one[2] == other[2]):
            return True
        if not modulus:
            return False
        apart += modulus
    return False


def cuts(bound: Congruence, access: Access) -> bool:
    """Whether a bound of what is copied may lie inside of what an access holds."""
    modulus, inside = gcd(bound[0], access[0]), bound[1] - access[1]
    if modulus:
        inside = inside % modulus or modulus
    return 0 < inside < access[2]


def only_stored(instrs: Iterable[Instr]) -> list[Instr]:
    """Loads of integers that are stored, and used by nothing else."""
    stored: set[int] = set()
    used: set[int] = set()
    loads: list[Instr] = []
    for it in instrs:
        others = [index for index, _ in it.element.indices] if it.element else []
        for place, operand in enumerate((*it.operands, *others)):
            if isinstance(operand, Local):
                (stored if it.op == "store" and place == 0 else used).add(operand.number)
        if it.op == "load" and it.type.kind == "int" and it.type.width % 8 == 0:
            loads.append(it)
    return [it for it in loads if it.number in stored - used]


@dataclass(frozen=True)
class Move:
    """A copy to a target from a source, or a fill, which has none.

    bytes: how many there are, or a number of which that is a multiple where it isn't `exact`. patterned: whether a fill
    is of something else than zeros.
    """

    target: Operand
    source: Operand | None
    bytes: int
    exact: bool
    patterned: bool = False


@dataclass(eq=False)
class Layout:
    """The cells of a region: `granule` in bytes, `whole` or not, and how many there are."""

    region: Region
    granule: int
    whole: bool
    accesses: frozenset[Access]
    cells: int = 0
    start: dict[int, int] = field(default_factory=dict)  # what isn't 0 at the start, by cell
    sizes: dict[int, int] = field(default_factory=dict)  # how many bytes these cells hold

    def parts(self, size: int) -> int:
        """How many cells an access of this many bytes takes."""
        return 1 if self.whole else size // self.granule

    @property
    def part_bits(self) -> int:
        """How many bits each of several cells holds."""
        return 8 * self.granule

    def cell_of(self, offset: int) -> int:
        """The number of granules in so many bytes."""
        return offset // self.granule


class Layouts:
    """The layout of each region that is used, by the pointers' and the accesses' places."""

    def __init__(self, objects: Objects) -> None:
        self.objects = objects
        self.accesses: dict[Region, set[Access]] = {}
        self.points: dict[Region, set[Congruence]] = {}
        self.moves: dict[Region, list[Move]] = {}
        self.pointers: dict[Region, set[Access]] = {}
        self.numbers: dict[Region, set[Access]] = {}
        copied = {it.number for it in only_stored(objects.instrs)}
        for it in objects.instrs:
            self._note(it)
            self._note_kind(it, copied)
        self._note_addresses()
        for region in objects.regions():
            if self._are_mixed(region):
                self.points.setdefault(region.content(), set()).add((0, 1))
        for region in objects.regions():
            if region.at is not None:
                self.points.setdefault(region, set()).add(region.at)
        self.of: dict[Region, Layout] = {region: self._layout(region) for region in objects.regions()
                                         if region in self.points}
        for layout in self.of.values():
            self._fill(layout)

    def layout(self, pointer: Operand) -> Layout | None:
        """The layout of the region into which a pointer points."""
        region = self.objects.region(pointer)
        return self.of.get(region) if region else None

    # What the instructions do.

    def _point(self, pointer: Operand) -> None:
        region, place = self.objects.region(pointer), self.objects.place(pointer)
        if region and place is not None:
            self.points.setdefault(region, set()).add(place)

    def _note(self, it: Instr) -> None:
        if it.type.kind == "ptr":
            self._point(Local(it.number))
        for operand in (*it.operands, *([it.element.base] if it.element else [])):
            for part in within(operand):
                if isinstance(part, Address):
                    self._point(part)
        if it.element:  # its parts are added one by one, so each has to be counted in granules
            region = self.objects.region(it.element.base)
            if region:
                found = self.points.setdefault(region, set())
                found |= {(0, it.element.offset), *((0, stride) for _, stride in it.element.indices)}
        if it.op == "load" and it.number not in self.objects.transfers:
            self._access(it.operands[0], it.type.bytes)
        elif it.op == "store":
            source = self.objects.transferred(it)
            if source:
                self._move(Move(it.operands[1], source, it.types[0].bytes, True))
            else:
                self._access(it.operands[1], it.types[0].bytes)
        elif it.op == "call" and (it.callee or "").startswith(COPIES + FILLS):
            self._move(self._move_of(it))

    def _access(self, pointer: Operand, size: int) -> None:
        region, place = self.objects.region(pointer), self.objects.place(pointer)
        if region and place is not None:
            self.accesses.setdefault(region, set()).add((*place, size))

    def _note_kind(self, it: Instr, copied: set[int]) -> None:
        """Whether an access is of a pointer or of a number; a copy is of neither, nor is a 0 that is stored."""
        if it.op == "load":
            pointer, kind, is_copy = it.operands[0], it.type, it.number in copied
        elif it.op == "store":
            value, pointer = it.operands
            kind, is_copy = it.types[0], value == Int(0, it.widths[0])
            is_copy |= isinstance(value, Local) and value.number in copied
        else:
            return
        region, place = self.objects.region(pointer), self.objects.place(pointer)
        if region and place is not None and not is_copy:
            found = self.pointers if kind.kind == "ptr" else self.numbers
            found.setdefault(region, set()).add((*place, kind.bytes))

    def _note_addresses(self) -> None:
        for region in self.objects.regions():
            for thing in region.objects:
                for datum in thing.source.data if isinstance(thing.source, Global) else ():
                    if isinstance(datum.value, Address):
                        self.pointers.setdefault(region, set()).add((0, thing.start + datum.offset, 8))

    def _are_mixed(self, region: Region) -> bool:
        """Whether a pointer may be read as a number, or the other way round. What lies there then counts bytes."""
        if region.content() not in self.objects.counted:
            return False
        moves = self.moves.get(region, [])
        both = [self._carried(found.get(region, set()), moves) for found in (self.pointers, self.numbers)]
        if both[0] is None or both[1] is None:
            return bool(both[0] != frozenset() and both[1] != frozenset())
        return any(one == other or overlap(one, other) for one in both[0] for other in both[1])

    def _move(self, move: Move) -> None:
        region = self.objects.region(move.target)
        if region:
            self.moves.setdefault(region, []).append(move)

    def _move_of(self, it: Instr) -> Move:
        target, other, count = it.operands[:3]
        exact = isinstance(count, Int)
        number = count.value if isinstance(count, Int) else multiple(count, self.objects.instrs)
        if (it.callee or "").startswith(COPIES):
            return Move(target, other, number, exact)
        return Move(target, None, number, exact, other != Int(0, 8))

    # Granules.

    def _layout(self, region: Region) -> Layout:
        moves = self.moves.get(region, [])
        granule = 0
        for modulus, rest in self.points[region]:
            granule = gcd(granule, modulus, rest)
        for move in moves:
            granule = gcd(granule, move.bytes)
        accesses = self._carried(self.accesses.get(region, set()), moves)
        whole = accesses is not None and self._whole(accesses, moves, granule)
        own = accesses or frozenset(self.accesses.get(region, ()))
        if not whole:
            for _, _, size in own:
                granule = gcd(granule, size)
        granule = granule or max((size for _, _, size in own), default=1)
        size = max(thing.start + thing.size for thing in region.objects)
        made = Layout(region, granule, whole, own, -(-size // granule))
        most = LIMITS[2].length
        if made.cells > most:
            names = ", ".join(thing.name for thing in region.objects[:4])
            raise Refusal(f"{names} would take {made.cells} cells of an array, which has {most} at most",
                          region.objects[0].source.place)
        return made

    def _bounds(self, move: Move) -> list[Congruence]:
        """Where what is copied or filled begins and ends, at its target and its source."""
        found: list[Congruence] = []
        for pointer in (move.target, *([move.source] if move.source else [])):
            place = self.objects.place(pointer)
            end = moved(place, move.bytes) if move.exact else moved(place, 0, move.bytes)
            if place is not None and end is not None:
                found += [place, end]
        return found

    def _carried(self, accesses: set[Access], moves: Iterable[Move]) -> frozenset[Access] | None:
        """Accesses of a region, with those that copies carry to other places; None where there is no end of it."""
        found = set(accesses)
        shifts = []
        for move in moves:
            target, source = self.objects.place(move.target), self.objects.place(move.source) if move.source else None
            if target and source:
                shifts.append((gcd(target[0], source[0]), target[1] - source[1]))
        for _ in range(ROUNDS):
            more = set()
            for modulus, rest, size in found:
                for own, by in shifts:
                    for way in (by, -by):
                        place = moved((modulus, rest), way, own)
                        if place:
                            more.add((*place, size))
            if more <= found:
                return frozenset(found)
            found |= more
        return None

    def _whole(self, accesses: frozenset[Access], moves: Iterable[Move], granule: int) -> bool:
        own = sorted(accesses)
        if len(own) > 400 or any(overlap(one, other) for k, one in enumerate(own) for other in own[k:]):
            return False
        for move in moves:
            if any(cuts(bound, access) for bound in self._bounds(move) for access in own):
                return False
            if move.patterned and any(size != granule for _, _, size in own):
                return False
        return True

    # What lies in memory at the start.

    def _fill(self, layout: Layout) -> None:
        for thing in layout.region.objects:
            if not isinstance(thing.source, Global) or not thing.source.data:
                continue
            content = self._bytes(thing, thing.source)
            for at, size in self._held(layout, thing):
                value = int.from_bytes(content[at - thing.start : at - thing.start + size], "little")
                if value:
                    cell = layout.cell_of(at)
                    layout.start[cell], layout.sizes[cell] = value, size

    def _bytes(self, thing: Object, source: Global) -> bytearray:
        content = bytearray(thing.size)
        for datum in source.data:
            value = datum.value
            if isinstance(value, Address):
                target = self.layout(value)
                value = target.cell_of(self.objects.offset(value)) if target else 0
            elif isinstance(value, Expression):
                value = self.objects.number(value)
            elif not isinstance(value, int):
                continue  # checks.py refuses all that uses such an object
            content[datum.offset : datum.offset + datum.size] = value.to_bytes(datum.size, "little")
        return content

    @staticmethod
    def _held(layout: Layout, thing: Object) -> Iterable[tuple[int, int]]:
        """The offsets in the region, and the sizes, of what an object's cells hold."""
        end = thing.start + thing.size
        if not layout.whole:
            for at in range(thing.start, end - layout.granule + 1, layout.granule):
                yield at, layout.granule
            return
        for modulus, rest, size in layout.accesses:
            first = rest if not modulus else thing.start + (rest - thing.start) % modulus
            for at in range(first, end - size + 1, modulus or 1 << 62):
                if at >= thing.start:
                    yield at, size
