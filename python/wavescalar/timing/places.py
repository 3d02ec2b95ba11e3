"""Places of instructions: which of them lies on which element, by a policy.

A place is a list by the instructions' numbers; that of 0 means nothing. Elements are counted from the first element
of the program's thread, and round again behind the last of the machine.
"""

from __future__ import annotations

import random
from collections.abc import Callable, Iterator
from typing import Any

from wavescalar.faults import Fault
from wavescalar.timing.parameters import Values
from wavescalar.timing.shape import Shape

Policy = Callable[[Any, Shape, Values], list[int]]


def turn(image: Any, shape: Shape, _: Values) -> list[int]:
    """Instruction I on element I modulo their number, as `wsc grid` has it."""
    return [i % shape.count for i in range(len(image.instrs))]


def by_block(size: Callable[[Shape], int]) -> Policy:
    """A policy by which blocks take pieces of so many elements in turn, and a block's instructions the elements of
    its piece in turn."""
    def policy(image: Any, shape: Shape, _: Values) -> list[int]:
        wide = min(size(shape), shape.count)
        made = [0] * len(image.instrs)
        for block, it in enumerate(image.blocks[1:]):
            first = block * wide % (shape.count // wide * wide)
            for at, i in enumerate(it.instrs):
                made[i] = first + at % wide
        return made
    return policy


def consumers(image: Any, i: int) -> Iterator[int]:
    """The instructions to which the result of an instruction goes, those of a send through its landings' pads."""
    it = image.instrs[i]
    if it.op == "send":
        for block in image.blocks[it.block].exit[2:]:
            yield from (j for j, _ in image.blocks[block].pads.get(it.arg, ()))
    for dests in it.lists:
        yield from (j for j, _ in dests)


def in_depth(image: Any) -> list[int]:
    """The instructions depth-first along the arcs from producers to consumers: each stands behind the producer from
    which it was reached, before that one's other consumers."""
    seen, order = [False] * len(image.instrs), []
    roots = [i for i, _ in image.blocks[1].pads[0]]
    for root in [*roots, *range(1, len(image.instrs))]:
        stack = [root]
        while stack:
            i = stack.pop()
            if not seen[i]:
                seen[i] = True
                order.append(i)
                stack += reversed([j for j in consumers(image, i) if not seen[j]])
    return order


def chain(image: Any, shape: Shape, machine: Values) -> list[int]:
    """Depth-first, so many on an element, then so many on the next; round again where all elements have theirs."""
    made, fill = [0] * len(image.instrs), machine["placement.fill"]
    for at, i in enumerate(in_depth(image)):
        made[i] = at // fill % shape.count
    return made


def at_random(image: Any, shape: Shape, machine: Values) -> list[int]:
    """Each on any element."""
    dice = random.Random(machine["placement.seed"])
    return [dice.randrange(shape.count) for _ in image.instrs]


def from_file(image: Any, shape: Shape, machine: Values) -> list[int]:
    """As a file says: lines of an instruction, by number or name, and an element; `#` begins a comment."""
    name = machine["placement.file"]
    if not name:
        raise Fault("placement.file names no file")
    known = {image.name_of(i): i for i in range(1, len(image.instrs))}
    known |= {str(i): i for i in range(1, len(image.instrs))}
    made: dict[int, int] = {}
    with open(name) as file:
        for number, line in enumerate(file, 1):
            words = line.split("#")[0].split()
            if not words:
                continue
            where = f"{name}, line {number}"
            if len(words) != 2 or words[0] not in known or not words[1].isdecimal():
                raise Fault(f"{where}: an instruction and an element were wanted")
            if int(words[1]) >= shape.count:
                raise Fault(f"{where}: there are {shape.count} elements, from 0 on")
            made[known[words[0]]] = int(words[1])
    lack = [i for i in range(1, len(image.instrs)) if i not in made]
    if lack:
        raise Fault(f"{name} has no place for instruction {image.name_of(lack[0])}")
    return [0, *(made[i] for i in range(1, len(image.instrs)))]


RULES: dict[str, Policy] = {
    "turn": turn, "chain": chain, "random": at_random, "file": from_file,
    "block": by_block(lambda shape: 1), "block-pod": by_block(lambda shape: shape.pod),
    "block-domain": by_block(lambda shape: shape.domain),
}


def places(image: Any, shape: Shape, machine: Values, cluster: int = 0) -> list[int]:
    """The place of each instruction of a program whose thread begins at a cluster; a file says it whole."""
    policy = machine["placement.policy"]
    made = RULES[policy](image, shape, machine)
    first = 0 if policy == "file" else cluster * shape.cluster
    return [(element + first) % shape.count for element in made]


def told(image: Any, place: list[int]) -> str:
    """The text of a file of places."""
    return "".join(f"{image.name_of(i)} {place[i]}\n" for i in range(1, len(place)))
