"""Memory operations of one run in several orders, side by side: with wave-ordered memory, and without it.

`trace`, `rounds`, `random-SEED` and `grid-E-W` are orders of viewer/orders.py, and `wsc replay` takes their events.
`loose-SEED` is an order of a machine without a store buffer's order (viewer/loose.py): nothing verifies it, and it may
print anything.
"""

from __future__ import annotations

from collections.abc import Sequence
from dataclasses import dataclass
from html import escape
from typing import Any

from wavescalar import numbered
from wavescalar.faults import Fault
from wavescalar.image import Image
from wavescalar.machine import Step
from wavescalar.notebook.jobs import Job
from wavescalar.notebook.show import table
from wavescalar.programs import usual
from wavescalar.viewer import loose
from wavescalar.viewer import orders as made_orders

MOST = 10000  # events of an order


@dataclass(frozen=True)
class Operation:
    """A memory operation that is done.

    wave: its wave number. instruction: its number. what: what it does, in words. early: a load before its turn, as its
    ripple number allows.
    """

    wave: int
    instruction: int
    what: str
    early: bool = False


@dataclass(frozen=True)
class Order:
    """A run in an order: its name, its memory operations as they were issued, what it prints, and whether `wsc replay`
    takes its events (None where it isn't asked)."""

    name: str
    title: str
    operations: tuple[Operation, ...]
    words: tuple[int, ...]
    replayed: bool | None


@dataclass(frozen=True)
class Orders:
    """Orders of one program, beside each other. most: so many operations are shown of each."""

    orders: tuple[Order, ...]
    most: int = 40

    @property
    def agree(self) -> bool:
        """Whether all print the same words."""
        return len({order.words for order in self.orders}) < 2

    def records(self) -> list[dict[str, Any]]:
        """A row for each operation: the order, its place from 1, wave number, instruction, what it does, whether early."""
        return [{"order": order.name, "place": at, "wave": it.wave, "instruction": it.instruction, "what": it.what,
                 "early": it.early} for order in self.orders for at, it in enumerate(order.operations, 1)]

    def __str__(self) -> str:
        return "\n".join(f"{order.name}: {' '.join(map(str, order.words))}" for order in self.orders)

    def _repr_pretty_(self, printer: Any, cycle: bool) -> None:
        printer.text(str(self))

    def _repr_html_(self) -> str:
        columns = [[_html_of(it) for it in order.operations[: self.most]] for order in self.orders]
        long = max((len(column) for column in columns), default=0)
        rows = [[str(at + 1), *(column[at] if at < len(column) else "" for column in columns)] for at in range(long)]
        told = {True: "taken by wsc replay", False: "refused by wsc replay", None: "no order of wsc"}
        rows.append(["", *(f"prints <b>{escape(' '.join(map(str, order.words)) or 'nothing')}</b><br>"
                           f"<i>{told[order.replayed]}</i>" for order in self.orders)])
        return table(["", *(order.title for order in self.orders)], rows)


def _html_of(it: Operation) -> str:
    early = ' <b style="color: #c8500a">early</b>' if it.early else ""
    return f"<code>{escape(it.what)}</code> <span style='color: #66727f'>wave {it.wave}</span>{early}"


def _operations(image: numbered.Image, steps: list[Step]) -> tuple[Operation, ...]:
    """The issues among some steps of the viewer's machine, in words."""
    names = [None, *(it[0] or f"hidden{at}" for at, it in enumerate(image.arrays[1:], 1))]
    made = []
    for step in (it for it in steps if it["k"] == "issue"):
        op, what = image.instrs[step["i"]].op, image.instrs[step["i"]].op
        if "cell" in step:
            array, cell, value = step["cell"]
            what = f"{names[array]}[{cell}] = {value}"
        elif "at" in step:
            array, cell = step["at"]
            what = f"{names[array]}[{cell}] gives {step['r']}"
        elif "print" in step:
            what = f"print {step['print']}"
        elif op in ("in", "give"):
            what = f"{op} gives {step['r']}"
        elif "fault" in step:
            what = f"{op} past the end of {step['fault']}"
        made.append(Operation(step["w"], step["i"], what, "early" in step))
    return tuple(made)


def _loose(name: str, assembly: str) -> Order:
    """The order of a machine without wave-ordered memory."""
    image = numbered.read(assembly)
    seed = int(name.partition("-")[2])
    _, steps, _ = loose.by_lot(image, MOST, seed)
    words = tuple(int(step["print"]) for step in steps if "print" in step)
    return Order(name, f"without wave order, seed {seed}", _operations(image, steps), words, None)


def _order(name: str, assembly: str, wsc: str) -> Order:
    made = made_orders.order_of(name, assembly, wsc, MOST)
    made_orders.replayed(made, assembly, wsc)
    return Order(name, made_orders.title_of(name), _operations(made.image, made.steps), tuple(map(int, made.words())), True)


def orders(of: Job | Image | str, *names: str, wsc: str | None = None, most: int = 40) -> Orders:
    """The memory operations of a program in each of these orders.

    of: a job, or an image or assembly, with its input. names: `trace`, `rounds`, `random-4`, `grid-4-2`, `loose-1`.
    Raises Fault for another name, and where `wsc replay` doesn't take an order.
    """
    program = wsc or usual()
    assembly = of.assembly(wsc=wsc) if isinstance(of, Job) else str(of)
    made = []
    for name in names or ("trace", "loose-1"):
        is_loose = name.startswith("loose-") and name[6:].isdigit()
        if not is_loose and not made_orders.is_order(name):
            raise Fault(f"`{name}` is no order: trace, rounds, random-SEED, grid-E-W or loose-SEED")
        made.append(_loose(name, assembly) if is_loose else _order(name, assembly, program))
    return Orders(tuple(made), most)


def seeds_that_differ(of: Job, seeds: Sequence[int], *, wsc: str | None = None) -> dict[tuple[int, ...], list[int]]:
    """What a machine without wave order prints under each of these seeds: the seeds by the words."""
    assembly, found = of.assembly(wsc=wsc), dict[tuple[int, ...], list[int]]()
    for seed in seeds:
        found.setdefault(_loose(f"loose-{seed}", assembly).words, []).append(seed)
    return found
