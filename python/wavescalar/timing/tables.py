"""Matching tables of a bounded number of entries: which instances an element holds.

An entry is an instance of which a token has come and that hasn't fired. Instances that have no entry keep their
tokens in memory, where there is room for any number. The set of an instance is of the article's kind: its
instruction's number on the element times the waves in flight, plus its wave number modulo these.
"""

from __future__ import annotations

from wavescalar.timing.parameters import Values


class Tables:
    """The entries of all elements."""

    def __init__(self, machine: Values, place: list[int], local: list[int], elements: int) -> None:
        self.ways, self.waves = machine["element.ways"], machine["waves"]
        self.sets = machine["element.entries"] // self.ways
        # of each instruction its element's first set, and its number on the element times the waves in flight
        self.first = [element * self.sets for element in place]
        self.step = [number * self.waves for number in local]
        # of each set its instances, the one that was used last behind: twice the number, and one more where all its
        # tokens have come
        self.rows: list[list[int]] = [[] for _ in range(elements * self.sets)]
        self.outside: set[int] = set()

    def admit(self, key: int, instr: int, wave: int) -> bool:
        """A token of the instance comes: whether it finds its entry, or a free one where it is the first.

        Where the set is full the entry that was used longest ago leaves, of those that still want a token; where
        none does, the instance stays in memory.
        """
        row = self.rows[self.first[instr] + (self.step[instr] + wave % self.waves) % self.sets]
        entry = 2 * key
        # one that has all its tokens gets one more where a store's address went alone
        there = entry + 1 if entry + 1 in row else entry
        if there in row:
            if row[-1] != there:
                row.remove(there)
                row.append(there)
            return True
        hit = not self.outside or key not in self.outside
        if len(row) >= self.ways:
            hit = False
            leaves = next((at for at, one in enumerate(row) if not one & 1), -1)
            if leaves < 0:
                self.outside.add(key)
                return False
            self.outside.add(row.pop(leaves) >> 1)
        self.outside.discard(key)
        row.append(entry)
        return hit

    def complete(self, key: int, instr: int, wave: int) -> None:
        """The instance has all its tokens, and stays until it fires."""
        row = self.rows[self.first[instr] + (self.step[instr] + wave % self.waves) % self.sets]
        if 2 * key in row:
            row[row.index(2 * key)] += 1

    def free(self, key: int, instr: int, wave: int) -> None:
        """The instance fires."""
        row = self.rows[self.first[instr] + (self.step[instr] + wave % self.waves) % self.sets]
        if 2 * key + 1 in row:
            row.remove(2 * key + 1)
        elif 2 * key in row:
            row.remove(2 * key)
        else:
            self.outside.discard(key)


class Instructions:
    """The instructions that elements hold, where they lie more to one than it has room for."""

    def __init__(self, machine: Values, place: list[int]) -> None:
        self.room, self.swap, self.place = machine["element.instructions"], machine["element.swap"], place
        lying: dict[int, list[int]] = {}
        for i in range(1, len(place)):
            lying.setdefault(place[i], []).append(i)
        # of each of those elements its instructions, the one that fired last behind
        self.held = {element: dict.fromkeys(those[: self.room]) for element, those in lying.items()
                     if len(those) > self.room > 0}
        self.swaps = 0

    def fetch(self, i: int) -> int:
        """The cycles until the element holds the instruction, in place of the one that fired longest ago."""
        held = self.held.get(self.place[i])
        if held is None:
            return 0
        there = i in held
        held.pop(i, None)
        held[i] = None
        if there:
            return 0
        del held[next(iter(held))]
        self.swaps += 1
        return int(self.swap)
