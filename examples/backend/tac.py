#!/usr/bin/env python3
"""A small back end: from three-address code to a draft of WaveScalar assembly, which `wsl` annotates.

    PYTHONPATH=../../python ./tac.py squares.tac | wsl --names > squares.asm

Each basic block becomes a wave. Its advances take the pulse and what is live at its head; a branch steers
what is live behind it; a call stores what it still needs in hidden cells, and sends values to the pads of its
callee; a `return` sends to the return block at the return address. Nothing here knows of annotations.
"""

import sys

from blocks import OPS, Basic, Code, Words
from plan import Plan
from wavescalar import Image, Value


class Wave:
    """The wave of a basic block: its advances by what they bring, and the value of each variable so far."""

    def __init__(self, plan: Plan, basic: Basic) -> None:
        self.plan, self.basic = plan, basic
        self.block = block = plan.builder.wave().block(basic.label)
        self.front = {name: block.advance(name=f"{basic.label}__{name}") for name in basic.takes()}
        for pad, advance in enumerate(self.front.values() if basic.pads is not None else []):
            block.pad(pad, advance)
        block.pulse = self.front["pulse"]
        self.value: dict[str, Value] = dict(self.front)
        for name, cell in plan.kept.get(basic.label, {}).items():
            self.value[name] = block.load(plan.hidden, cell)
        for words in basic.body:
            self.statement(words)

    def of(self, word: str) -> Value:
        """The value of a variable, or of a number; a variable that isn't set is 0."""
        return self.value.get(word) or self.block.const(int(word) if word.isdigit() else 0)

    def statement(self, words: Words) -> None:
        match words:
            case ["print", x]:
                self.block.out(self.of(x))
            case [x, "=", "read"]:
                self.value[x] = self.block.in_()
            case [x, "=", y]:
                self.value[x] = self.of(y)
            case [x, "=", y, op, z]:
                self.value[x] = self.block.alu(OPS[op], self.of(y), self.of(z))
            case [x, "=", a, "[", i, "]"]:
                self.value[x] = self.block.load(self.plan.arrays[a], self.of(i))
            case [a, "[", i, "]", "=", x]:
                self.block.store(self.plan.arrays[a], self.of(i), self.of(x))

    def leave(self, waves: dict[str, "Wave"]) -> None:
        """The exit, and what goes along it."""
        block, basic, plan = self.block, self.basic, self.plan
        match basic.exit:
            case ["goto", label]:
                for name, advance in waves[label].front.items():
                    self.of(name).to(advance)
                block.go(waves[label].block)
            case ["if", c, yes, no]:
                self.branch(self.of(c), waves[yes], waves[no])
            case ["call", callee, after]:
                for name, cell in plan.kept[after].items():
                    block.store(plan.hidden, cell, self.of(name))
                place = block.const(plan.returns[callee].index(after))
                self.send(block.const(0), [place, *map(self.of, basic.given)], waves[callee])
            case ["return", x]:
                self.send(self.value["ra"], [self.of(x)], *[waves[at] for at in plan.returns[basic.proc]])
            case ["halt"]:
                block.stop()

    def branch(self, chosen: Value, *sides: "Wave") -> None:
        """Steers what either side takes, and leads to each by an empty block."""
        for name in sides[0].front | sides[1].front:
            steer = self.block.steer(self.of(name), chosen)
            for value, side in zip((steer.yes, steer.no), sides):
                if name in side.front:
                    value.to(side.front[name])
        for arm, side in zip(self.block.branch(chosen), sides):
            arm.go(side.block)

    def send(self, address: Value, values: list[Value], *landings: "Wave") -> None:
        """Sends the pulse and these values to the pads of the landing whose place, from 0, is the address."""
        for pad, value in enumerate([self.block.pulse, *values]):
            self.block.send(pad, address, value)
        self.block.send_to(address, *(wave.block for wave in landings))


def draft_of(text: str) -> Image:
    """The draft of a program."""
    plan = Plan(Code(text))
    waves = {label: Wave(plan, basic) for label, basic in plan.code.blocks.items()}
    for wave in waves.values():
        wave.leave(waves)
    return plan.builder.image()


if __name__ == "__main__":
    print(draft_of(open(sys.argv[1]).read()), end="")
