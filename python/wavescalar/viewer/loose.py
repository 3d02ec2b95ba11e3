"""The machine of the viewer without wave-ordered memory, to show what its order is for.

Here a request is done as soon as it has its operands, whatever the program's order is. So what is printed depends on
which event happens first, and `wsc` has nothing of this kind: its store buffer waits for the notes' order.
"""

from __future__ import annotations

import random
from typing import Any

from wavescalar.machine import Machine, Step
from wavescalar.numbered import Image


class Loose(Machine):
    """As `Machine`, but an operation that has its operands is issued at any time."""

    def may_issue(self, wave: int, instr: int) -> bool:
        """Whether the request is there."""
        return (wave, instr) in self.asked and not self.faulted

    def is_next(self, wave: int, instr: int) -> bool:
        """No operation comes before its turn, since none has one."""
        return True

    def pass_on(self) -> list[list[int]]:
        """There is no chain to pass on."""
        return []


def by_lot(image: Image, most: int, seed: int) -> tuple[list[Any], list[Step], str]:
    """As `by_lot` of orders.py: at most so many events, each drawn from those that can happen."""
    machine, lot = Loose(image), random.Random(seed)
    made: list[Step] = []
    while not machine.faulted and len(made) < most:
        enabled: list[tuple[int, ...]] = [*machine.way, *machine.asked]
        if not enabled:
            break
        event = lot.choice(enabled)
        made.append(machine.match(*event) if len(event) == 3 else machine.issue(*event))
    return machine.start, made, "" if not machine.way and not machine.asked else f"the first {most} events alone"
