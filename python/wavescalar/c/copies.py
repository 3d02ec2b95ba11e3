"""Copies of structs: clang makes an integer of a struct of up to 8 bytes, which is loaded and stored at once.

Such an integer overlaps the fields, so that an access would take several cells (cells.py). Where a load's result is
only stored, no bits of it are looked at: it is a *transfer*, of so many cells, each by itself.
"""

from __future__ import annotations

from wavescalar.c.cells import Layouts, only_stored
from wavescalar.c.ir import Instr, Module
from wavescalar.c.objects import Objects


def memory(module: Module) -> Layouts:
    """The layouts of a module's objects, with transfers where they make cells whole."""
    layouts = Layouts(Objects(module))
    if not _split(layouts):
        return layouts
    moved = frozenset(it.number for it in only_stored(module.instrs) if not _is_whole(layouts, it))
    better = Layouts(Objects(module, moved)) if moved else layouts
    return better if _split(better) < _split(layouts) else layouts


def _is_whole(layouts: Layouts, it: Instr) -> bool:
    layout = layouts.layout(it.operands[0])
    return layout is None or layout.whole


def _split(layouts: Layouts) -> int:
    """How many regions have accesses of several cells."""
    return sum(not layout.whole for layout in layouts.of.values())
