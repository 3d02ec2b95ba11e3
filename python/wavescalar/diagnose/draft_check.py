"""What a draft needs so that `wsl` can give it notes, told once more, not asked of the program.

    arm       a branch leads to two blocks of its wave that no other edge enters, or to two first blocks of waves
    trigger   something can trigger the no-op that a block needs
    full      the list that would name the no-op has room for it

Nothing of this is asked of a draft whose paths can be linked as they are.
"""

from __future__ import annotations

from collections.abc import Mapping, Sequence
from typing import Any, Protocol, TypeVar

from wavescalar.isa import KINDS

# A block, of a text that was read or of a quick pass: both have the same parts.
B = TypeVar("B", bound=Any)

# A result that goes on the same way whatever the operands are.
GIVES = {op for op, kind in KINDS.items() if kind.lists == 1}
ROOM = 8  # destinations in a list
SHARED, SOLE, MANY = range(3)  # which operations may be last on the paths into a block


def links(blocks: Sequence[B], first: Mapping[B, bool]) -> bool:
    """Whether of all neighbours on paths one can name the other, and each path of a wave has an operation."""
    last: dict[B, set[Any]] = {}
    before: dict[Any, set[Any]] = {}
    behind: dict[Any, set[Any]] = {}
    for b in blocks:
        here = {None} if first[b] else last.get(b)
        if here is None:
            continue
        for it in b.memory:
            before[it] = here
            for old in here:
                behind.setdefault(old, set()).add(it)
            here = {it}
        for t in b.targets or [None]:
            if t is None or first[t]:
                if None in here:
                    return False
                for old in here:
                    behind.setdefault(old, set()).add(None)
            else:
                last[t] = last.get(t, set()) | here
    if any(None in ways and len(ways) > 1 for ways in [*before.values(), *(behind[it] for it in before)]):
        return False
    return not any(len(ways) > 1 and any(len(behind[old]) > 1 for old in ways) for ways in before.values())


def needed(blocks: Sequence[B], first: Mapping[B, bool]) -> set[B]:
    """The blocks that get a no-op."""
    ways: dict[B, int] = {}
    states: dict[B, int] = {}
    inside: dict[B, list[B]] = {}
    for b in blocks:
        inside[b] = [t for t in b.targets if not first[t]]
        if first[b] or b in ways:
            for t in inside[b]:
                ways[t] = ways.get(t, 0) + 1
    found: set[B] = set()
    for b in blocks:
        if not first[b] and b not in ways:
            continue
        state = SHARED if first[b] else MANY if ways[b] > 1 else states.get(b, SHARED)
        where = inside[b]
        vain = state != SHARED if not where else state != MANY if len(where) > 1 else \
            not (state == SHARED and ways[where[0]] > 1)
        if not b.memory and not vain:
            found.add(b)
        for t in where:
            states[t] = SHARED if len(where) > 1 else SOLE if b.memory or b in found else state
    return found


class Telling(Protocol):
    """What has the blocks of a draft, and is told what it lacks: Rules, and one that only wants to know whether."""

    first: Any
    blocks: Any

    def add(self, line: int, column: int, rule: str, message: str, mend: str, check: str, /, **about: int | str) -> None:
        """A fault at a place."""

    def at_instr(self, it: Any, rule: str, message: str, mend: str, check: str) -> None:
        """A fault of an instruction."""

    def at_exit(self, b: Any, rule: str, message: str, mend: str, check: str) -> None:
        """A fault of a block's exit."""


class Fit:
    """All that a draft lacks, told by `rules`, which has its blocks."""

    def __init__(self, rules: Telling) -> None:
        self.rules, self.first, self.blocks = rules, rules.first, rules.blocks
        if links(self.blocks, self.first):
            return
        self.ways: dict[Any, int] = {}
        self.before: dict[Any, Any] = {}
        for b in self.blocks:
            for t in b.targets:
                self.ways[t], self.before[t] = self.ways.get(t, 0) + 1, b
        for b in self.blocks:
            if b.kind == "if":
                self.branch(b)
        lists: dict[tuple[Any, int], int] = {}
        for b in sorted(needed(self.blocks, self.first), key=lambda b: int(b.number)):
            for it, place in self.triggers(b):
                lists[it, place] = lists.get((it, place), 0) + 1
        for (it, place), more in lists.items():
            if len(it.lists[place]) + more > ROOM:
                rules.at_instr(it, "full", f"a list of {it.called()} has {len(it.lists[place])} destinations, and has "
                               "to name a no-op too", "spread them by a `merge`", f"refused full {it.number}")

    def is_arm(self, b: Any) -> bool:
        return not self.first[b] and self.ways.get(b) == 1

    def branch(self, b: Any) -> None:
        targets = b.targets
        if all(self.is_arm(t) for t in targets) or all(self.first[t] for t in targets):
            return
        for t in targets:
            if not self.is_arm(t):
                wrong = "is the first of a wave, and the other isn't" if self.first[t] else "has other ways into it"
                self.rules.at_exit(b, "arm", f"block {b.called()} branches to block {t.called()}, which {wrong}",
                                   "branch to a block of its own that goes on there", f"refused arm {b.number}")

    def triggers(self, b: Any) -> list[tuple[Any, int]]:
        """The lists that name the no-op of a block: an instruction and a place each."""
        for it in b.instrs:
            if it.op in GIVES:
                return [(it, 0)]
        before = self.before.get(b)
        if before and self.is_arm(b) and before.kind == "if":
            for it in before.special:
                if it.op == "steer":
                    return [(it, place) for place, t in enumerate(before.targets) if t is b]
        self.rules.add(b.line, b.column, "trigger", f"nothing in block {b.called()} could trigger the no-op that it "
                       "needs", "give it a `merge` of the pulse", f"refused trigger {b.number}", block=b.number)
        return []
