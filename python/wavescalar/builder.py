"""Builds images by calls: a destination is made by using a value.

    b = Builder()
    start, loop = b.wave().block("start"), b.wave().block("loop")
    start.pulse = start.arrive(0)
    n = start.in_()
    loop.pulse = loop.advance(start.pulse)
    i = loop.advance(n)
    ...

An operand is a value, a whole number, for which a `const` is made that the block's `pulse` triggers, or a tuple of
values that come on different paths. What is known later is said by `value.to(instruction, port)`.
"""

from __future__ import annotations

import re
from collections.abc import Sequence
from dataclasses import dataclass
from typing import Union

from wavescalar.faults import BuildFault
from wavescalar.image import DRAFT, Array, Block, Exit, Going, Image, Instruction, Note, Port, Wave
from wavescalar.isa import KINDS, LIMITS, OPERATORS, WORDS

NAME = re.compile(r"[A-Za-z_][0-9A-Za-z_]*")
Use = tuple["Node", int]


class Value:
    """What an instruction gives, as a list of the ports that use it."""

    def __init__(self, home: "BlockBuilder | None" = None) -> None:
        self.uses: dict[Use, None] = {}  # in the order in which they were made
        self.home = home  # the block that gives it

    def to(self, node: "Node", port: int = 0) -> None:
        """Sends the value to a port, from 0, of an instruction: most often to an `advance` that stands earlier."""
        _is_node(node)
        if not 0 <= port < KINDS[node.op].ports:
            raise BuildFault(f"{node} has no port {port}")
        if self.home and node.block and node.op != "advance" and self.home.wave is not node.block.wave:
            raise BuildFault(f"{node} in {node.block} uses a value of {self.home}, which stands in another wave: "
                             "bring it in by an advance of the wave's first block")
        if (node, port) in self.uses:
            raise BuildFault(f"the value goes to port {port} of {node} already")
        self.uses[node, port] = None


Operand = Union[Value, int, tuple[Value, ...]]


class Node:
    """An instruction in the making."""

    def __init__(self, op: str, argument: int | None, note: Note | None, name: str | None) -> None:
        self.op, self.argument, self.note, self.name = op, argument, note, name
        self.block: BlockBuilder | None = None  # where it stands; None of what the builder itself adds

    def lists(self) -> list[list[Use]]:
        """Copies of its lists of destinations."""
        return []

    def __str__(self) -> str:
        return f"{self.name} ({self.op})" if self.name else self.op


def _is_node(node: object) -> None:
    """What is given where an instruction has to stand is one."""
    if not isinstance(node, Node):
        raise BuildFault(f"{node!r} is no instruction")


class Result(Node, Value):
    """An instruction that is the value that it gives."""

    def __init__(self, op: str, argument: int | None, note: Note | None, name: str | None,
                 home: "BlockBuilder | None" = None) -> None:
        Node.__init__(self, op, argument, note, name)
        Value.__init__(self, home)

    def lists(self) -> list[list[Use]]:
        return [list(self.uses)]


class Steer(Node):
    """A steer: `yes` is the value where the selector isn't 0, `no` where it is."""

    def __init__(self, name: str | None, home: "BlockBuilder | None" = None) -> None:
        super().__init__("steer", None, None, name)
        self.yes, self.no = Value(home), Value(home)

    def lists(self) -> list[list[Use]]:
        return [list(self.yes.uses), list(self.no.uses)]


class BlockBuilder:
    """A block in the making."""

    def __init__(self, wave: "WaveBuilder", name: str | None) -> None:
        self.wave, self.name = wave, name
        self._pulse: Value | None = None
        self.pads: dict[int, list[Use]] = {}
        self.advances: list[Node] = []
        self.nodes: list[Node] = []
        self.leaves: tuple[Going, Node | None, tuple[BlockBuilder, ...]] | None = None

    def __str__(self) -> str:
        return f"block {self.name or 'without a name'}"

    @property
    def pulse(self) -> Value:
        """The value that triggers the block's constants, `in_`, `halt` and the like."""
        if self._pulse is None:
            raise BuildFault(f"{self} has no pulse: nothing triggers what wants a trigger")
        return self._pulse

    @pulse.setter
    def pulse(self, value: Value) -> None:
        self._pulse = value

    # What stands in it.

    def _put(self, node: Node, operands: Sequence[Operand]) -> None:
        node.block = self
        for port, operand in enumerate(operands):
            values = operand if isinstance(operand, tuple) else (operand,)
            for value in values:
                if not isinstance(value, (int, Value)):
                    raise BuildFault(f"{value!r} is no operand of {node}: that is a value, a whole number, or a tuple of values")
                (self.const(value) if isinstance(value, int) else value).to(node, port)
        (self.advances if node.op == "advance" else self.nodes).append(node)

    def _result(self, op: str, operands: Sequence[Operand], name: str | None, argument: int | None = None,
                note: Note | None = None) -> Result:
        node = Result(op, argument, note, name, self)
        self._put(node, operands)
        return node

    def _node(self, op: str, operands: Sequence[Operand], name: str | None, argument: int | None = None,
              note: Note | None = None) -> Node:
        node = Node(op, argument, note, name)
        self._put(node, operands)
        return node

    def _trigger(self, trigger: Operand | None) -> Operand:
        return self.pulse if trigger is None else trigger

    def const(self, word: int, trigger: Operand | None = None, name: str | None = None) -> Result:
        """The word, from -2^63 to 2^64 - 1, a negative one modulo 2^64."""
        if not -(WORDS >> 1) <= word < WORDS:
            raise BuildFault(f"{word} is no word of 64 bits")
        return self._result("const", (self._trigger(trigger),), name, word % WORDS)

    def alu(self, op: str, left: Operand, right: Operand, name: str | None = None) -> Result:
        """One of the instructions with two operands, by its word."""
        if op not in OPERATORS:
            raise BuildFault(f"there is no operation {op!r} of two operands: they are {', '.join(OPERATORS)}")
        return self._result(op, (left, right), name)

    def add(self, left: Operand, right: Operand, name: str | None = None) -> Result:
        return self.alu("add", left, right, name)

    def sub(self, left: Operand, right: Operand, name: str | None = None) -> Result:
        return self.alu("sub", left, right, name)

    def mul(self, left: Operand, right: Operand, name: str | None = None) -> Result:
        return self.alu("mul", left, right, name)

    def div(self, left: Operand, right: Operand, name: str | None = None) -> Result:
        return self.alu("div", left, right, name)

    def rem(self, left: Operand, right: Operand, name: str | None = None) -> Result:
        return self.alu("rem", left, right, name)

    def and_(self, left: Operand, right: Operand, name: str | None = None) -> Result:
        return self.alu("and", left, right, name)

    def or_(self, left: Operand, right: Operand, name: str | None = None) -> Result:
        return self.alu("or", left, right, name)

    def xor(self, left: Operand, right: Operand, name: str | None = None) -> Result:
        return self.alu("xor", left, right, name)

    def shl(self, left: Operand, right: Operand, name: str | None = None) -> Result:
        return self.alu("shl", left, right, name)

    def shr(self, left: Operand, right: Operand, name: str | None = None) -> Result:
        return self.alu("shr", left, right, name)

    def eq(self, left: Operand, right: Operand, name: str | None = None) -> Result:
        return self.alu("eq", left, right, name)

    def ne(self, left: Operand, right: Operand, name: str | None = None) -> Result:
        return self.alu("ne", left, right, name)

    def lt(self, left: Operand, right: Operand, name: str | None = None) -> Result:
        return self.alu("lt", left, right, name)

    def le(self, left: Operand, right: Operand, name: str | None = None) -> Result:
        return self.alu("le", left, right, name)

    def gt(self, left: Operand, right: Operand, name: str | None = None) -> Result:
        return self.alu("gt", left, right, name)

    def ge(self, left: Operand, right: Operand, name: str | None = None) -> Result:
        return self.alu("ge", left, right, name)

    def merge(self, *values: Value, name: str | None = None) -> Result:
        """The one of these values that comes: they come on different paths."""
        return self._result("merge", (values,), name)

    def advance(self, *values: Value, name: str | None = None) -> Result:
        """The value under the next wave number; those that come from later on are said by `value.to(it)`."""
        return self._result("advance", (values,), name)

    def steer(self, value: Operand, selector: Operand, name: str | None = None) -> Steer:
        node = Steer(name, self)
        self._put(node, (value, selector))
        return node

    def phi(self, one: Operand, other: Operand, selector: Operand, name: str | None = None) -> Result:
        """`one` where the selector isn't 0, else `other`; both are computed."""
        return self._result("phi", (one, other, selector), name)

    def send(self, pad: int, address: Operand, value: Operand, name: str | None = None) -> Node:
        """The value, to a pad, from 0 to 15, of the landing at the address."""
        return self._node("send", (address, value), name, pad)

    def load(self, array: "ArrayHandle", index: Operand, name: str | None = None, note: Note | None = None) -> Result:
        """The cell at the index, from 0."""
        return self._result("load", (index,), name, _number(array), note or DRAFT)

    def store(self, array: "ArrayHandle", index: Operand, value: Operand, name: str | None = None,
              note: Note | None = None) -> Node:
        return self._node("store", (index, value), name, _number(array), note or DRAFT)

    def in_(self, trigger: Operand | None = None, name: str | None = None, note: Note | None = None) -> Result:
        """The next word of the input, 0 behind the last."""
        return self._result("in", (self._trigger(trigger),), name, None, note or DRAFT)

    def out(self, value: Operand, name: str | None = None, note: Note | None = None) -> Node:
        return self._node("out", (value,), name, None, note or DRAFT)

    def give(self, port: int, trigger: Operand | None = None, name: str | None = None,
             note: Note | None = None) -> Result:
        """The word that a port of the outside, from 1 to 7, gives."""
        return self._result("give", (self._trigger(trigger),), name, port, note or DRAFT)

    def take(self, port: int, value: Operand, name: str | None = None, note: Note | None = None) -> Node:
        return self._node("take", (value,), name, port, note or DRAFT)

    def nop(self, trigger: Operand | None = None, name: str | None = None, note: Note | None = None) -> Node:
        return self._node("nop", (self._trigger(trigger),), name, None, note or DRAFT)

    def halt(self, trigger: Operand | None = None, name: str | None = None, note: Note | None = None) -> Node:
        return self._node("halt", (self._trigger(trigger),), name, None, note or DRAFT)

    # How it is entered, and where it goes.

    def pad(self, number: int, *nodes: Node) -> None:
        """A pad, from 0 to 15, that gives to port 0 of these advances of the block."""
        if number in self.pads:
            raise BuildFault(f"{self} has a pad {number} already")
        for node in nodes:
            _is_node(node)
        self.pads[number] = [(node, 0) for node in nodes]

    def arrive(self, pad: int, name: str | None = None) -> Result:
        """An advance behind a pad: the start pulse comes to pad 0 of the first block, a sent value to its own."""
        node = self.advance(name=name)
        self.pad(pad, node)
        return node

    def _leave(self, kind: Going, selector: Value | None, *targets: "BlockBuilder") -> None:
        if self.leaves:
            raise BuildFault(f"{self} has an exit already")
        if selector is not None and not isinstance(selector, Result):
            raise BuildFault(f"the selector of {self} is no result of an instruction: give it a merge")
        for target in targets:
            if not isinstance(target, BlockBuilder):
                raise BuildFault(f"{target!r} is no block to which {self} could go")
        self.leaves = (kind, selector, targets)

    def go(self, target: "BlockBuilder") -> None:
        self._leave("go", None, target)

    def if_(self, selector: Value, yes: "BlockBuilder", no: "BlockBuilder") -> None:
        """To `yes` where the result of an instruction of this block isn't 0, else to `no`."""
        self._leave("if", selector, yes, no)

    def branch(self, selector: Value) -> tuple["BlockBuilder", "BlockBuilder"]:
        """As `if_`, with two new blocks behind all others of the wave, that nothing else enters."""
        yes, no = self.wave.block(), self.wave.block()
        self.if_(selector, yes, no)
        return yes, no

    def send_to(self, address: Value, *landings: "BlockBuilder") -> None:
        """To the landing whose place, from 0, is the result of an instruction of this block; else to the last."""
        if not landings:
            raise BuildFault(f"{self} sends to nothing")
        self._leave("send", address, *landings)

    def stop(self, trigger: Operand | None = None, name: str | None = None) -> None:
        """Nowhere; with a `halt` where the block has none."""
        if not any(node.op == "halt" for node in self.nodes):
            self.halt(trigger, name)
        self._leave("stop", None)


class WaveBuilder:
    """A wave in the making."""

    def __init__(self) -> None:
        self.blocks: list[BlockBuilder] = []

    def block(self, name: str | None = None) -> BlockBuilder:
        """The next block of the wave."""
        block = BlockBuilder(self, name)
        self.blocks.append(block)
        return block


@dataclass(frozen=True)
class ArrayHandle:
    """An array, by its number from 1."""

    number: int
    name: str | None
    length: int


def _number(array: ArrayHandle) -> int:
    """The number of an array."""
    if not isinstance(array, ArrayHandle):
        raise BuildFault(f"{array!r} is no array: `array` and `hidden` of the builder give one")
    return array.number


class Builder:
    """A program in the making, of version 1 or 2; names stay in version 2 alone."""

    def __init__(self, version: int = 2) -> None:
        if version not in LIMITS:
            raise BuildFault("the version is 1 or 2")
        self.version = version
        self.waves: list[WaveBuilder] = []
        self.arrays: list[ArrayHandle] = []

    def wave(self) -> WaveBuilder:
        """The next wave."""
        self.waves.append(WaveBuilder())
        return self.waves[-1]

    def array(self, name: str, length: int) -> ArrayHandle:
        """An array of so many cells of 64 bits, which `run(.., memory=True)` shows."""
        if not isinstance(name, str) or not NAME.fullmatch(name):
            raise BuildFault(f"{name!r} is no name")
        return self._array(name, length)

    def hidden(self, length: int) -> ArrayHandle:
        """An array of so many cells that isn't shown."""
        return self._array(None, length)

    def _array(self, name: str | None, length: int) -> ArrayHandle:
        self.arrays.append(ArrayHandle(len(self.arrays) + 1, name, length))
        return self.arrays[-1]

    def image(self, room: int | None = None) -> Image:
        """The image. Lists of more than `room` destinations are spread; room is 7 for a draft, else 8.

        Operations whose note wasn't said have that of a draft: `link` makes the notes. The builder stays as it is.
        """
        blocks = [block for wave in self.waves for block in wave.blocks]
        nodes = [node for block in blocks for node in (*block.advances, *block.nodes)]
        if room is None:
            room = LIMITS[2].destinations - any(node.note == DRAFT for node in nodes)
        return _Laid(self, blocks, room).image()


class _Laid:
    """The nodes in listing order, with their lists spread."""

    def __init__(self, builder: Builder, blocks: list[BlockBuilder], room: int) -> None:
        self.builder, self.blocks, self.room = builder, blocks, room
        self.names: set[str] = set()
        self.counts: dict[tuple[str, str], int] = {}
        self.lists: dict[Node, list[list[Use]]] = {}
        self.pads = [{k: list(uses) for k, uses in sorted(block.pads.items())} for block in blocks]
        self.ways: dict[Use, list[list[Use]]] = {}  # the lists that name a port
        self.order: list[list[Node]] = []
        own = dict.fromkeys(node for block in blocks for node in (*block.advances, *block.nodes))
        for node in own:
            self.lists[node] = node.lists()
        for uses in [uses for lists in self.lists.values() for uses in lists] + [
            uses for pads in self.pads for uses in pads.values()
        ]:
            for use in uses:
                if use[0] not in own:
                    raise BuildFault(f"a value goes to {use[0]}, which stands in another program")
                self.ways.setdefault(use, []).append(uses)
        self.check_names("block", [block.name for block in blocks if block.name is not None])
        self.check_names("instruction", [node.name for node in self.lists if node.name is not None])
        self.check_ports(blocks)
        for block in reversed(blocks):
            front = list(block.advances)
            rest: list[Node] = []
            for node in reversed(block.nodes):
                rest += [*reversed(self.spread(node)), node]
            behind = [it for node in front for it in self.spread(node)]
            self.order.append([*front, *behind, *reversed(rest)])
        self.order.reverse()
        for block, pads in zip(blocks, self.pads):
            for number, uses in pads.items():
                if len(uses) > LIMITS[2].destinations:
                    raise BuildFault(f"pad {number} of {block} goes to {len(uses)} advances: give it one, and use that")

    def check_names(self, kind: str, names: list[str]) -> None:
        seen: set[str] = set()
        for name in names:
            if not NAME.fullmatch(name) or len(name) > LIMITS[2].name:
                raise BuildFault(f"{name!r} is no name for a {kind}")
            if name in seen:
                raise BuildFault(f"two have the name {name}: {kind}")
            seen.add(name)
        self.names |= seen

    def check_ports(self, blocks: list[BlockBuilder]) -> None:
        for block in blocks:
            if block.leaves is None:
                raise BuildFault(f"{block} has no exit")
            for node in (*block.advances, *block.nodes):
                for port in range(KINDS[node.op].ports):
                    if (node, port) not in self.ways:
                        raise BuildFault(f"nothing comes to port {port} of {node} in {block}")

    def fresh(self, name: str | None, mark: str) -> str | None:
        """A name for what spreads a named instruction's list."""
        if name is None:
            return None
        count = self.counts.get((name, mark), 0)
        while (made := f"{name}_{mark}{count}") in self.names:
            count += 1
        self.counts[name, mark] = count + 1
        self.names.add(made)
        return made if len(made) <= LIMITS[2].name else None

    def spread(self, node: Node) -> list[Node]:
        """What stands behind a node so that its lists aren't too long: merges, or more steers."""
        lists = self.lists[node]
        if isinstance(node, Steer):
            return self.twins(node)
        made: list[Node] = []
        for uses in lists:
            at = 0  # what stands before has gone to merges
            while len(uses) - at > self.room:
                more = Result("merge", None, None, self.fresh(node.name, "m"))
                taken = uses[at : at + self.room]
                for use in taken:
                    self.moved(use, uses, taken)
                self.lists[more] = [taken]
                self.ways[more, 0] = [uses]
                uses.append((more, 0))
                at += self.room
                made.append(more)
            del uses[:at]
        return made[::-1]

    def moved(self, use: Use, old: list[Use], new: list[Use]) -> None:
        self.ways[use] = [new if way is old else way for way in self.ways[use]]

    def twins(self, node: Node) -> list[Node]:
        """More steers of the same value by the same selector: a merge can't stand behind a list of a steer."""
        made: list[Node] = []
        while any(len(uses) > self.room for uses in self.lists[node]):
            twin = Steer(self.fresh(node.name, "t"))
            self.lists[twin] = []
            for uses in self.lists[node]:
                taken = uses[self.room : 2 * self.room]
                del uses[self.room : 2 * self.room]
                self.lists[twin].append(taken)
                for use in taken:
                    self.moved(use, uses, taken)
            for port in range(2):
                for way in self.ways[node, port]:
                    way.append((twin, port))
                self.ways[twin, port] = list(self.ways[node, port])
            made.append(twin)
        return made

    def image(self) -> Image:
        numbers = {node: k for k, node in enumerate((node for nodes in self.order for node in nodes), 1)}
        places = {block: k for k, block in enumerate(self.blocks, 1)}
        named = self.builder.version == 2

        def ports(uses: list[Use]) -> tuple[Port, ...]:
            return tuple(Port(numbers[node], port) for node, port in uses)

        made: dict[BlockBuilder, Block] = {}
        for block, nodes, pads in zip(self.blocks, self.order, self.pads):
            instrs = tuple(
                Instruction(node.op, node.argument, node.note, tuple(map(ports, self.lists[node])),
                            node.name if named else None)
                for node in nodes
            )
            kind, selector, targets = block.leaves  # type: ignore[misc]
            for target in targets:
                if target not in places:
                    raise BuildFault(f"{block} goes to {target}, which stands in another program")
            if selector is not None and selector not in nodes:
                raise BuildFault(f"the selector of {block} stands in another block: give it a merge there")
            end = Exit(kind, None if selector is None else numbers[selector], tuple(places[t] for t in targets))
            made[block] = Block(instrs, end, tuple((k, ports(uses)) for k, uses in pads.items()),
                                block.name if named else None)
        waves = tuple(Wave(tuple(made[block] for block in wave.blocks)) for wave in self.builder.waves)
        arrays = tuple(Array(array.name, array.length) for array in self.builder.arrays)
        return Image(waves, arrays, self.builder.version)
