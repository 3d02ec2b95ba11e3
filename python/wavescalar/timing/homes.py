"""Which store buffer orders which wave of a thread, and how far it is from an element to it."""

from __future__ import annotations

from wavescalar.timing.flat import Flat


class Homes:
    """By the parameter buffer.homes: the first cluster of the thread, the clusters in turn, or by a table.

    With a table a wave is bound to the cluster where its first memory operation fires. A request goes to the store
    buffer of its element's cluster first. That asks, once for each wave, the part of the table that lies in cluster W
    modulo the clusters for wave W, and sends the request on to where the wave is bound."""

    def __init__(self, flat: Flat) -> None:
        self.flat, self.shape, machine = flat, flat.shape, flat.machine
        self.how, self.lookup = machine["buffer.homes"], machine["buffer.lookup"]
        self.first = [program.cluster for program in flat.programs]
        self.bound: list[dict[int, int]] = [{} for _ in flat.programs]
        self.known: set[tuple[int, int, int]] = set()
        self.asked = 0

    def of(self, number: int, wave: int, otherwise: int = 0) -> int:
        """The cluster of a wave of a thread; of one that isn't bound yet, another one."""
        if self.how == "first":
            return self.first[number]
        if self.how == "turn":
            return (self.first[number] + wave) % self.shape.clusters
        return self.bound[number].get(wave, otherwise)

    def ask(self, number: int, wave: int, element: int) -> tuple[int, int]:
        """The cluster of a wave, and the cycles that a request takes from an element to it."""
        if self.how != "table":
            home = self.of(number, wave)
            return home, self.shape.to_buffer(element, home)
        own = element // self.shape.cluster
        home = self.bound[number].setdefault(wave, own)
        way = self.shape.to_buffer(element, own) + self.shape.between(own, home)
        if (number, wave, own) not in self.known:
            self.known.add((number, wave, own))
            self.asked += 1
            way += self.lookup + 2 * self.shape.between(own, wave % self.shape.clusters)
        return home, way
