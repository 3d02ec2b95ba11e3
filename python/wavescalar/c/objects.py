"""Which object each pointer points into, and where: regions, and offsets as congruences.

Objects that one pointer may point into are joined to a *region* (Steensgaard, POPL 1996): a pointer is then one
number, its offset in its region. What lies at pointers in memory is the region's *content*. An offset is known as a
congruence: `(m, r)` stands for all r + k m, in bytes, and `(0, r)` for r alone.
"""

from __future__ import annotations

from dataclasses import dataclass
from math import gcd
from typing import Optional, Union

from wavescalar.c.ir import Address, Expression, Global, Instr, Int, Local, Module, Null, Operand, computed, within

Congruence = tuple[int, int]
ALIGN = 16  # bytes; objects of one region begin at multiples of it, and so does the first one of a region with null
COPIES = ("llvm.memcpy.", "llvm.memmove.")
FILLS = ("llvm.memset.",)
COMPUTED = ("phi", "select", "add", "sub", "and", "or", "xor", "freeze")  # how a number is made of a pointer's
NEAR = 16  # operations between a pointer and a number that is stored, and may be read as a pointer


def joined(one: Optional[Congruence], other: Optional[Congruence]) -> Optional[Congruence]:
    """The least congruence that holds both; None holds nothing."""
    if one is None or other is None:
        return one or other
    modulus = gcd(one[0], other[0], one[1] - other[1])
    return modulus, one[1] % modulus if modulus else one[1]


def moved(place: Optional[Congruence], offset: int, stride: int = 0) -> Optional[Congruence]:
    """All places `offset` bytes further, and any multiple of `stride`."""
    if place is None:
        return None
    modulus = gcd(place[0], stride)
    return modulus, (place[1] + offset) % modulus if modulus else place[1] + offset


def multiple(operand: Operand, instrs: list[Instr], depth: int = 6) -> int:
    """A power of two of which an integer is a multiple, also where it wrapped around; 2^64 for 0."""
    if isinstance(operand, Int):
        return (operand.value & -operand.value) or 1 << 64
    if not isinstance(operand, Local) or not depth:
        return 1
    it = instrs[operand.number]
    parts = [multiple(part, instrs, depth - 1) for part in it.operands] if it.op in (
        "add", "sub", "mul", "shl", "and", "or", "zext", "sext", "select") else []
    if it.op in ("add", "sub", "or"):
        return min(parts)
    if it.op == "select":
        return min(parts[1:])
    if it.op == "mul":
        return min(parts[0] * parts[1], 1 << 64)
    if it.op == "shl":
        distance = it.operands[1]
        return min(parts[0] << distance.value, 1 << 64) if isinstance(distance, Int) else parts[0]
    if it.op == "and":
        return max(parts)
    return parts[0] if parts else 1


@dataclass(eq=False)
class Object:
    """A piece of memory: a global object, or a local array. `start` is its offset in its region, in bytes."""

    name: str
    size: int
    source: Union[Global, Instr]
    start: int = 0


class Region:
    """Objects between which pointers don't distinguish; a class of a union-find structure."""

    def __init__(self) -> None:
        self.parent: Region | None = None
        self.objects: list[Object] = []
        self._content: Region | None = None
        self.has_null = False
        self.at: Congruence | None = None  # all offsets that pointers in memory of this region's content may have

    def root(self) -> Region:
        """The one that stands for all that were joined to it."""
        here = self
        while here.parent is not None:
            if here.parent.parent is not None:
                here.parent = here.parent.parent
            here = here.parent
        return here

    def content(self) -> Region:
        """The region into which pointers point that lie in this one."""
        own = self.root()
        if own._content is None:
            own._content = Region()
        return own._content.root()

    def join(self, other: Region) -> None:
        """Makes one of two, and of what lies in them."""
        waiting = [(self, other)]
        while waiting:
            one, two = (region.root() for region in waiting.pop())
            if one is two:
                continue
            two.parent = one
            one.objects += two.objects
            one.has_null |= two.has_null
            if one._content is None:
                one._content = two._content
            elif two._content is not None:
                waiting.append((one._content, two._content))


class Objects:
    """The memory of a module: the region of each pointer, and the congruence of its offset.

    transfers: the numbers of loads whose results are copied by cells (copies.py).
    """

    def __init__(self, module: Module, transfers: frozenset[int] = frozenset()) -> None:
        self.module, self.instrs, self.transfers = module, module.instrs, transfers
        self.globals = {name: Object(name, it.size, it) for name, it in module.globals.items()}
        self.locals = {it.number: Object(it.name or f"local{it.number}", it.size, it)
                       for it in self.instrs if it.op == "alloca"}
        self._of_object: dict[Object, Region] = {}
        for thing in (*self.globals.values(), *self.locals.values()):
            self._of_object[thing] = Region()
            self._of_object[thing].objects.append(thing)
        self._of_pointer: dict[int, Region] = {}
        self.has_numbers = any(it.op == "ptrtoint" for it in self.instrs)
        self._check_allocas()
        self._join_regions()
        self.counted = self._counted()
        self._place_objects()
        self.places: dict[int, Congruence | None] = {}
        self._find_places()

    def transferred(self, store: Instr) -> Operand | None:
        """The pointer from which a store takes its cells, where it is part of a transfer."""
        value = store.operands[0]
        if isinstance(value, Local) and value.number in self.transfers:
            return self.instrs[value.number].operands[0]
        return None

    # Regions.

    def region(self, operand: Operand) -> Region | None:
        """The region of a pointer; None for null and for what isn't defined."""
        if isinstance(operand, Local):
            if operand.number in self.locals:
                return self._of_object[self.locals[operand.number]].root()
            return self._of_pointer.setdefault(operand.number, Region()).root()
        if isinstance(operand, Address):
            thing = self.globals.get(operand.object)
            return self._of_object[thing].root() if thing else None
        return None

    def regions(self) -> list[Region]:
        """All regions with objects, in the order of the objects."""
        return list(dict.fromkeys(region.root() for region in self._of_object.values()))

    def _check_allocas(self) -> None:
        for it in self.instrs:
            if it.op == "alloca" and (it.size == 0 or it not in self.module.blocks[0].instrs):
                raise it.refused("an array whose length isn't known when it is compiled")

    def _one(self, *pointers: Operand) -> None:
        """All these point into one region; where one is null, null points there too."""
        found = [region for region in map(self.region, pointers) if region]
        for other in found[1:]:
            found[0].join(other)
        if found and any(isinstance(pointer, Null) for pointer in pointers):
            found[0].root().has_null = True

    def _join_regions(self) -> None:
        for thing, region in self._of_object.items():
            for datum in thing.source.data if isinstance(thing.source, Global) else ():
                for part in within(datum.value) if not isinstance(datum.value, int) else ():
                    target = self.region(part)
                    if target:
                        region.content().join(target)
        for it in self.instrs:
            self._join_by(it)

    def _join_by(self, it: Instr) -> None:
        own = Local(it.number)
        if it.op == "getelementptr" and it.element:
            self._one(own, it.element.base)
        elif it.op in ("bitcast", "phi", "freeze") and it.type.kind == "ptr":
            self._one(own, *it.operands)
        elif it.op == "select" and it.type.kind == "ptr":
            self._one(own, *it.operands[1:])
        elif it.op == "icmp":
            self._one(*it.operands)
        elif it.op == "load" and it.type.kind == "ptr":
            holder = self.region(it.operands[0])
            if holder:
                content = holder.content()
                content.join(self._of_pointer.setdefault(it.number, Region()))
                content.root().has_null = True  # memory is 0 at the start
        elif it.op == "store":
            source = self.transferred(it)
            if source:
                self._one(it.operands[1], source)
            self._join_store(*it.operands)
        elif it.op == "call" and (it.callee or "").startswith(COPIES):
            self._one(*it.operands[:2])
        elif it.op == "inttoptr":
            target = self._of_pointer.setdefault(it.number, Region())
            for region in self._meant(it.operands[0]):
                target.join(region)
            target.root().has_null = True

    def _meant(self, number: Operand, most: int = 1 << 30) -> list[Region]:
        """The regions that a pointer may point into that is made of a number: those of what it is computed of.

        most: how many operations are looked at.
        """
        found: list[Region] = []
        seen: set[int] = set()
        waiting = [number]
        while waiting and len(seen) < most:
            operand = waiting.pop()
            found += [region for part in within(operand) if isinstance(part, Address) and (region := self.region(part))]
            if not isinstance(operand, Local) or operand.number in seen:
                continue
            seen.add(operand.number)
            it = self.instrs[operand.number]
            if it.op in COMPUTED:
                waiting += it.operands[it.op == "select":]
            elif it.op in ("ptrtoint", "load"):
                region = self.region(it.operands[0])
                found += [region if it.op == "ptrtoint" else region.content()] if region else []
        return found

    def _counted(self) -> set[Region]:
        """The regions of pointers of which numbers are made, other than their differences."""
        found: set[Region] = set()

        def from_pointer(operand: Operand) -> bool:
            return isinstance(operand, Expression) or (
                isinstance(operand, Local) and self.instrs[operand.number].op == "ptrtoint")

        for it in self.instrs:
            if it.op == "inttoptr":
                found |= {region for region in [self.region(Local(it.number))] if region}
            if it.op == "sub" and all(map(from_pointer, it.operands)):
                continue
            for operand in filter(from_pointer, it.operands):
                found.update(self._meant(operand))
        for thing in self.globals.values():
            for datum in thing.source.data if isinstance(thing.source, Global) else ():
                if isinstance(datum.value, Expression):
                    found.update(self._meant(datum.value))
        return {region.root() for region in found}

    def _join_store(self, value: Operand, pointer: Operand) -> None:
        holder = self.region(pointer)
        if holder is None:
            return
        if isinstance(value, Null):
            holder.content().has_null = True
        elif isinstance(value, Address) or isinstance(value, Local) and self.instrs[value.number].type.kind == "ptr":
            target = self.region(value)
            if target:
                holder.content().join(target)
        elif isinstance(value, Local) and self.instrs[value.number].op == "load":
            source = self.region(self.instrs[value.number].operands[0])  # what is copied may be a pointer
            if source:
                holder.content().join(source.content())
        elif isinstance(value, Expression) or isinstance(value, Local) and self.has_numbers:
            for region in self._meant(value, NEAR):
                holder.content().join(region)

    def _place_objects(self) -> None:
        for region in self.regions():
            at = ALIGN if region.has_null else 0
            for thing in region.objects:
                thing.start = at
                at += -(-thing.size // ALIGN) * ALIGN

    # Offsets.

    def place(self, operand: Operand) -> Congruence | None:
        """Where in its region a pointer points; None where no run comes to it."""
        if isinstance(operand, Local):
            if operand.number in self.locals:
                return 0, self.locals[operand.number].start
            return self.places.get(operand.number)
        if isinstance(operand, Address):
            return 0, self.offset(operand)
        return (0, 0) if isinstance(operand, Null) else None

    def offset(self, address: Address) -> int:
        """The offset of an address in its region, in bytes."""
        return self.globals[address.object].start + address.offset

    def number(self, operand: Operand) -> int:
        """The number that a constant comes to; an address counts bytes in its region."""
        if isinstance(operand, Expression):
            parts = [self.number(part) for part in operand.parts]
            return computed(operand.op, parts, operand.widths, operand.width, operand.predicate) or 0
        if isinstance(operand, Address):
            return self.offset(operand) if operand.object in self.globals else 0
        return operand.value if isinstance(operand, Int) else 0

    def _find_places(self) -> None:
        for thing in self.globals.values():
            region = self._of_object[thing].content()
            for datum in thing.source.data if isinstance(thing.source, Global) else ():
                if isinstance(datum.value, Address) and datum.value.object in self.globals:
                    region.at = joined(region.at, self.place(datum.value))
                elif isinstance(datum.value, Expression):
                    region.at = joined(region.at, (1, 0))
        changed = True
        while changed:
            changed = False
            for it in self.instrs:
                changed |= self._find_place(it)

    def _find_place(self, it: Instr) -> bool:
        """Widens what is known by one instruction; whether that changed anything."""
        if it.op == "store":
            return self._find_stored(*it.operands)
        if it.type.kind != "ptr" or it.op == "alloca":
            return False
        found: Congruence | None = None
        if it.op == "getelementptr" and it.element:
            found = moved(self.place(it.element.base), it.element.offset)
            for index, stride in it.element.indices:
                found = moved(found, 0, stride * multiple(index, self.instrs))
        elif it.op in ("phi", "select", "bitcast", "freeze"):
            for operand in it.operands[it.op == "select":]:
                found = joined(found, self.place(operand))
        elif it.op == "inttoptr":
            found = (1, 0)
        elif it.op == "load":
            holder = self.region(it.operands[0])
            if holder:
                found = joined(holder.content().at, (0, 0))
        old = self.places.get(it.number)
        self.places[it.number] = joined(old, found)
        return self.places[it.number] != old

    def _find_stored(self, value: Operand, pointer: Operand) -> bool:
        holder = self.region(pointer)
        found: Congruence | None = None
        if isinstance(value, Local):
            it = self.instrs[value.number]
            source = self.region(it.operands[0]) if it.op == "load" and it.type.kind != "ptr" else None
            found = self.place(value) if it.type.kind == "ptr" else source.content().at if source else None
            is_number = it.type.kind == "int" and it.type.width == 64 and not source
            if is_number and self.has_numbers and self._meant(value, NEAR):
                found = (1, 0)
        elif isinstance(value, Expression):
            found = (1, 0)
        elif isinstance(value, (Address, Null)):
            found = self.place(value)
        if holder is None or found is None:
            return False
        content = holder.content()
        old, content.at = content.at, joined(content.at, found)
        return content.at != old
