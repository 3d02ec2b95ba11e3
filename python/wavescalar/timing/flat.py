"""The images of a machine's threads laid on it, as flat lists by the instructions' numbers.

Instructions of all threads are numbered through: those of a thread follow those of the thread before it. With N, one
more than all of them, an instance is the number wave · N + instruction, and a slot 4 · instance + port. So instances
and slots are ordered by wave, thread, instruction and port as numbers are. An arc is such a number of wave 0, or of
wave 1 behind an advance, and the cycles of the way.
"""

from __future__ import annotations

from collections.abc import Callable, Sequence
from typing import Any

from wavescalar.faults import Fault
from wavescalar.isa import ALU, OPERATORS
from wavescalar.timing.parameters import Values
from wavescalar.timing.places import places
from wavescalar.timing.shape import BUFFER, CLASSES, Link, Shape

CONST, OF_TWO, COPY, STEER, PHI, SEND, MEMORY = range(7)
KINDS = {"const": CONST, "merge": COPY, "advance": COPY, "steer": STEER, "phi": PHI, "send": SEND,
         **dict.fromkeys(ALU, OF_TWO)}
# in a token so many bits are below its slot
SHIFT = 30
LOW = (1 << SHIFT) - 1
# what stands in a note for none, and for one that depends on the path
NONE, OPEN = -1, -2


def link(word: Any) -> int:
    """A number of a note."""
    return {".": NONE, "?": OPEN}.get(word, word)


class Arcs:
    """A list of destinations from one place: slots, as they stand in tokens, and cycles, the links of each way where one has a width, how many
    ways there are of each class, where they lead from and to, and how often all was taken."""

    __slots__ = ("to", "links", "kinds", "ends", "used")

    def __init__(self) -> None:
        self.to: list[tuple[int, int]] = []
        self.links: list[list[Link]] = []
        self.kinds = [0] * len(CLASSES)
        # elements, or for a store buffer ~ of its cluster
        self.ends: list[tuple[int, int]] = []
        self.used = 0


class Program:
    """A thread's program: its image and input, its number from 0, what its instructions' numbers are counted from,
    and the cluster at which it begins."""

    def __init__(self, image: Any, number: int, first: int, cluster: int) -> None:
        self.image, self.number, self.first, self.cluster = image, number, first, cluster
        self.words: list[int] = image.input


class Flat:
    """The lists."""

    def __init__(self, images: Sequence[Any], shape: Shape, machine: Values) -> None:
        self.shape, self.machine = shape, machine
        self.programs: list[Program] = []
        self.place, self.count = [0], 1
        for number, image in enumerate(images):
            if len(image.instrs) == 1:
                raise Fault("there is no instruction")
            apart = machine["placement.threads"] == "apart"
            cluster = number * shape.clusters // len(images) if apart else 0
            self.programs.append(Program(image, number, self.count - 1, cluster))
            self.place += places(image, shape, machine, cluster)[1:]
            self.count += len(image.instrs) - 1
        self.wide = 4 * self.count
        self.read()
        self.local = self.numbered()
        self.lists: list[Arcs] = []
        self.made: dict[tuple[int, int], Arcs] = {}
        self.out = [[], *(self.results(i) for i in range(1, self.count))]

    def read(self) -> None:
        """What stands in the images of each instruction."""
        made: list[tuple[Any, Program]] = [(it, program) for program in self.programs for it in program.image.instrs[1:]]
        first, program = made[0]
        made = [(first, program), *made]
        self.instrs, self.program = [it for it, _ in made], [program for _, program in made]
        self.op: list[str] = [it.op for it in self.instrs]
        self.kind = [KINDS.get(op, MEMORY) for op in self.op]
        self.ports: list[int] = [it.ports for it in self.instrs]
        self.arg: list[int] = [it.arg for it in self.instrs]
        self.does: list[Callable[[int, int], int]] = [OPERATORS.get(op, OPERATORS["add"]).does for op in self.op]
        self.work: list[int] = [
            (self.machine[f"operations.{op}"] or self.machine["operations.usual"]) - 1 for op in self.op]
        notes = [it.note or (NONE, 0, NONE, 0) for it in self.instrs]
        self.pred, self.seq, self.succ, self.ripple = ([link(note[k]) for note in notes] for k in range(4))
        # stores of which the address goes to the store buffer alone
        late = self.machine["buffer.queues"] > 0
        self.parted = [late and op == "store" for op in self.op]
        self.bases: list[list[int]] = []
        cells = 0
        for program in self.programs:
            self.bases.append([0])
            for _, length in program.image.arrays[1:]:
                self.bases[-1].append(cells)
                cells += length

    def numbered(self) -> list[int]:
        """The number of each instruction among those of its element."""
        seen: dict[int, int] = {}
        made = [0]
        for i in range(1, self.count):
            made.append(seen.get(self.place[i], 0))
            seen[self.place[i]] = made[-1] + 1
        return made

    def arcs(self, source: int, first: int, dests: Sequence[tuple[int, int]], shift: int = 0) -> Arcs:
        """Arcs from an element, or ~ of a cluster whose store buffer it is, to these ports of a program whose
        instructions' numbers are counted from `first`."""
        made, shape = Arcs(), self.shape
        for instr, port in dests:
            there = self.place[first + instr]
            if source < 0:
                kind, cycles = BUFFER, shape.to_buffer(there, ~source)
                links = shape.buffer_links(there, ~source, 1)
            else:
                (kind, cycles), links = shape.way(source, there), shape.links(source, there)
            made.to.append((4 * (first + instr + shift * self.count) + port << SHIFT, cycles))
            made.links.append(links)
            made.kinds[kind] += 1
            made.ends.append((source, there))
        self.lists.append(made)
        return made

    def results(self, i: int) -> list[Arcs]:
        """The arcs of an instruction that sends its result itself: one list, or two of a steer."""
        it = self.instrs[i]
        if it.op == "send" or it.note:
            return []
        first = self.program[i].first
        return [self.arcs(self.place[i], first, dests, int(it.op == "advance")) for dests in it.lists]

    def landing(self, i: int, address: int) -> Arcs:
        """The arcs of a send to the landing at an address."""
        program = self.program[i]
        landings = program.image.blocks[self.instrs[i].block].exit[2:]
        block = landings[min(address, len(landings) - 1)]
        if (i, block) not in self.made:
            pads = program.image.blocks[block].pads[self.arg[i]]
            self.made[i, block] = self.arcs(self.place[i], program.first, pads)
        return self.made[i, block]

    def answer(self, i: int, home: int) -> Arcs:
        """The arcs of the answer of a memory operation from the store buffer of a cluster."""
        if (i, ~home) not in self.made:
            self.made[i, ~home] = self.arcs(~home, self.program[i].first, self.instrs[i].lists[0])
        return self.made[i, ~home]

    def start(self) -> list[int]:
        """The slots of the start pulses."""
        return [4 * (program.first + instr) + port
                for program in self.programs for instr, port in program.image.blocks[1].pads[0]]
