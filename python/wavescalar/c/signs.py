"""Which arrays hold extended words: those whose numbers are used with their signs.

A cell holds a clean word (widths.py) unless most of what is loaded of its region would have to be extended behind each
load. Such a region's cells hold extended words: a store extends what it stores, and loads give words that need nothing
more. That is possible where each cell is always accessed as a whole, by loads and stores of integers, copies, and fills
with zeros.
"""

from __future__ import annotations

from collections.abc import Iterable
from dataclasses import dataclass

from wavescalar.c.cells import Layouts
from wavescalar.c.ir import Instr, Int, Local, Module
from wavescalar.c.objects import Region
from wavescalar.c.widths import loop_depths

SIGNS = ("sext", "sdiv", "srem", "ashr")  # which would extend a clean word
BITS_OR_WORDS = ("zext", "lshr", "udiv", "urem", "call", "ret", "inttoptr", "uitofp")  # which need a clean one
EXTEND, CLEAN, STORE = 2, 2, 3  # firings, about: to extend a clean word, to clean an extended one, to extend for a store
TURNS = 8  # of a loop, about
DEEPEST = 6  # loops inside of one another that count


@dataclass(frozen=True)
class Signs:
    """The regions whose cells hold extended words, and the numbers of the loads and stores of such cells."""

    regions: frozenset[Region] = frozenset()
    accesses: frozenset[int] = frozenset()


def signs(module: Module, layouts: Layouts) -> Signs:
    """The regions of a module for which that takes fewer firings."""
    depths = loop_depths(module)
    uses = _uses(module.instrs)
    unable = {region for region, moves in layouts.moves.items() if any(move.patterned for move in moves)}
    gains: dict[Region, int] = {}
    accesses: dict[Region, set[int]] = {}
    for it in module.instrs:
        found = _accessed(it, layouts)
        if found is None or found[1] == 64:
            continue
        region, width = found
        if width % 8:
            unable.add(region)
        accesses.setdefault(region, set()).add(it.number)
        gain = _gain(uses.get(it.number, [])) if it.op == "load" else -STORE * (not isinstance(it.operands[0], Int))
        gains[region] = gains.get(region, 0) + gain * TURNS ** min(depths.get(it.number, 0), DEEPEST)
    regions = frozenset(region for region, gain in gains.items() if gain > 0 and region not in unable)
    return Signs(regions, frozenset[int]().union(*(accesses[region] for region in regions)))


def _uses(instrs: Iterable[Instr]) -> dict[int, list[tuple[Instr, bool]]]:
    """For each result what uses it, and whether as an index of an address."""
    found: dict[int, list[tuple[Instr, bool]]] = {}
    for it in instrs:
        for operand in it.operands:
            if isinstance(operand, Local):
                found.setdefault(operand.number, []).append((it, it.op == "getelementptr"))
    return found


def _accessed(it: Instr, layouts: Layouts) -> tuple[Region, int] | None:
    """The region of which an access of an integer is, and the integer's width."""
    if it.op not in ("load", "store"):
        return None
    own, pointer = (it.type, it.operands[0]) if it.op == "load" else (it.types[0], it.operands[1])
    layout = layouts.layout(pointer)
    return (layout.region, own.width) if layout and layout.whole and own.kind == "int" else None


def _gain(uses: list[tuple[Instr, bool]]) -> int:
    """About how many firings it saves that what is loaded is extended."""
    signed = any(is_index or it.op in SIGNS for it, is_index in uses)
    clean = any(not is_index and (it.op in BITS_OR_WORDS or it.op == "icmp" and it.predicate[0] == "u")
                for it, is_index in uses)
    return EXTEND * signed - CLEAN * clean
