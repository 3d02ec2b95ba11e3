"""Orders in which a run's events may happen, by the words that name them.

`trace` is the order of `wsc trace`, `rounds` all that can happen at once, `grid-E-W` the cycles of a grid of E elements
with W waves in flight, `random-S` a random order from the seed S. All but the first are made by the
machine of the viewer, and `wsc replay` is asked whether each of their events is enabled, and what they print.
"""

import random
import re
from typing import Any

from wavescalar.faults import Fault
from wavescalar.machine import Machine, Step, goes_on, rounds, steps
from wavescalar.numbered import Image, read, sections
from wavescalar.programs import call, traced, with_input
from wavescalar.viewer.grid import Recorded, cycles, recorded

NAMES = re.compile(r"trace|rounds|grid-([1-9]\d?)-([1-9]\d{0,4})|random-(0|[1-9]\d{0,8})")
MOST_ELEMENTS = 64


class Order:
    """A run in some order: its image, its opening tokens, its steps, why they end, and a grid's run."""

    def __init__(self, image: Image, start: list[Any], steps_made: list[Step], why: str, grid: Recorded | None = None):
        self.image, self.start, self.steps, self.why, self.grid = image, start, steps_made, why, grid

    def words(self) -> list[str]:
        """What it prints."""
        return [it["print"] for it in self.steps if "print" in it]

    def events(self) -> list[str]:
        """The events as a trace has them."""
        return [f"match {it['w']} {it['i']} {it['p']}" if it["k"] == "match" else f"issue {it['w']} {it['i']}"
                for it in self.steps]


def is_order(name: str) -> bool:
    """Whether an order has this name."""
    found = NAMES.fullmatch(name)
    return found is not None and (not found[1] or int(found[1]) <= MOST_ELEMENTS)


def counted(number: str, word: str) -> str:
    """So many of something."""
    return f"{number} {word}{'' if number == '1' else 's'}"


def title_of(name: str) -> str:
    """An order in words."""
    kind, *numbers = name.split("-")
    if kind == "grid":
        return f"clocked grid: {counted(numbers[0], 'element')}, {counted(numbers[1], 'wave')} in flight"
    if kind == "random":
        return f"at random, seed {numbers[0]}"
    return "the order of wsc trace" if kind == "trace" else "all that can happen at once, in rounds"


def by_lot(image: Image, most: int, seed: int) -> tuple[list[Any], list[Step], str]:
    """As `steps` of machine.py, with at most so many events, each chosen at random among those that are enabled."""
    machine, lot = Machine(image), random.Random(seed)
    made: list[Step] = []
    while not machine.faulted and len(made) < most:
        enabled: list[tuple[int, ...]] = [*machine.way, *(key for key in machine.asked if machine.may_issue(*key))]
        if not enabled:
            break
        event = lot.choice(enabled)
        made.append(machine.match(*event) if len(event) == 3 else machine.issue(*event))
    return machine.start, made, goes_on(machine)


def order_of(name: str, assembly: str, program: str, most: int) -> Order:
    """The run of an assembly in the order of this name, with at most so many events."""
    kind, *numbers = name.split("-")
    grid, image = None, read(traced(program, assembly, most) if kind == "trace" else assembly)
    if kind == "trace":
        made = steps(image, most)
    elif kind == "rounds":
        made = rounds(image, most)
    elif kind == "random":
        made = by_lot(image, most, int(numbers[0]))
    else:
        grid = recorded(program, assembly, int(numbers[0]), int(numbers[1]), most)
        made = cycles(image, grid, most)
    start, events, why = made
    return Order(image, start, events, why, grid)


def replayed(order: Order, assembly: str, program: str) -> str:
    """What `wsc replay` says of these events: its status, its words, and its last line that isn't about arrays; a
    Fault where it takes them not."""
    own = with_input("\n".join(sections(assembly)[0][0]).rstrip("\n") + "\n", assembly).rstrip("\n")
    lacks = "" if sections(assembly)[1] else "\n%input"
    text = "\n".join([f"{own}{lacks}", "%trace", *order.events()]) + "\n"
    status, answer, errors = call(program, ["replay"], text)
    lines = answer.splitlines()
    words = [line for line in lines if line.isdigit()]
    if status not in (0, 8) or words != order.words():
        raise Fault(f"wsc replay doesn't take this order: {(answer or errors).strip()[-200:]}")
    return next((line for line in reversed(lines) if not line.startswith("firings") and not line.isdigit()), "")
