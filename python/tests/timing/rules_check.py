"""Whether the events of a run keep the rules of its machine: worked out anew from their cycles.

The events of each thread are made one after the other by the viewer's machine, which knows no time. Of each is asked
whether it comes when the parameters let it: not before, and neither an element nor a store buffer idles while it has
something that it may do.
"""

from __future__ import annotations

from collections.abc import Iterator
from typing import Any

from wavescalar.machine import Illegal, Machine
from wavescalar.timing.engine import Run
from wavescalar.timing.parameters import Values
from wavescalar.timing.shape import Link, Shape

# A cycle, the kind, the wave, the instruction by its number among all, and of a match the port.
Event = tuple[Any, ...]


def timed(run: Run) -> Iterator[Event]:
    """The events with their cycles, as a trace has them."""
    wide = run.flat.wide
    for cycle, slots in run.record.pieces():
        for slot in slots:
            wave, rest = divmod(slot if slot >= 0 else ~slot, wide)
            yield (cycle, "match", wave, rest >> 2, rest & 3) if slot >= 0 else (cycle, "issue", wave, rest >> 2)


class Rules:
    """The rules, over the events up to one."""

    def __init__(self, run: Run, machine: Values) -> None:
        self.machine, self.flat, self.shape = machine, run.flat, Shape(machine)
        self.cores = [Machine(program.image) for program in run.flat.programs]
        threads = range(len(self.cores))
        self.sent: dict[tuple[int, int, int], int] = {}
        self.asked: dict[tuple[int, int], int] = {}
        self.fires: dict[tuple[int, int], tuple[int, int]] = {}
        self.issues: dict[tuple[int, int], int] = {}
        self.used: dict[tuple[Link, int], int] = {}
        self.blocked: set[tuple[int, int]] = set()
        self.opened, self.moved, self.turn = [0 for _ in threads], [0 for _ in threads], [[0, 0] for _ in threads]
        self.bound: dict[tuple[int, int], int] = {}
        self.told: set[tuple[int, int, int]] = set()
        for program, core in zip(run.flat.programs, self.cores):
            for *_, wave, i, port, _ in core.start:
                self.sent[wave, i + program.first, port] = 1
        # where no token misses and no instruction is swapped in, cycles are known and not only bounded
        self.known = not run.stock.held and len(self.cores) == 1
        self.exact = not run.stock.held and not (machine["element.entries"] or machine["element.inputs"])
        # with links and cycles that are bounded alone, what waits for a link isn't known
        self.linked = any(self.shape.widths) and self.exact and not machine["cache.sets"]
        self.wrong: list[str] = []

    def want(self, holds: bool, what: str, event: Event) -> None:
        if not holds:
            self.wrong.append(f"{what}: {event}")

    def work(self, i: int) -> int:
        """Cycles that an operation takes beyond its own."""
        op = self.flat.op[i]
        return int(self.machine[f"operations.{op}"] or self.machine["operations.usual"]) - 1

    def home(self, thread: int, wave: int, otherwise: int = 0) -> int:
        """The cluster of a wave."""
        how, first = self.machine["buffer.homes"], self.flat.programs[thread].cluster
        if how == "table":
            return self.bound.get((thread, wave), otherwise)
        return (first + (wave if how == "turn" else 0)) % self.shape.clusters

    def links(self, links: list[Link], left: int) -> int:
        """The cycles that an operand waits for its links, a hop behind the other."""
        at, waits = left, 0
        for step, link in enumerate(links if self.linked else ()):
            at += self.machine["network.hop"] if step else 0
            while self.used.get((link, at), 0) == self.shape.widths[link[0]]:
                at, waits = at + 1, waits + 1
            self.used[link, at] = self.used.get((link, at), 0) + 1
        return waits

    def event(self, event: Event) -> None:
        """One event."""
        cycle, kind, wave, i, *port = event
        program = self.flat.program[i]
        thread, first = program.number, program.first
        core = self.cores[thread]
        is_next, stood = kind == "issue" and core.is_next(wave, i - first), (core.wave, core.last)
        step = core.match(wave, i - first, *port) if kind == "match" else core.issue(wave, i - first)
        if kind == "match":
            self.match(thread, event, "full" in step)
            home, late = None, self.work(i)
        else:
            self.issue(thread, event, is_next)
            home, late = self.home(thread, wave), 0
            if self.flat.op[i] == "load":
                takes = [self.machine[f"cache.{name}"] for name in ("hit", "miss")]
                late = min(takes) if self.machine["cache.sets"] else takes[0]
        if stood != (core.wave, core.last):
            self.moved[thread] = cycle
        for *_, to_wave, j, to_port, _ in step.get("new", ()):
            self.sent[to_wave, j + first, to_port] = self.comes(i, j + first, home, cycle + late)
        while len(self.turn[thread]) <= core.wave:
            self.turn[thread].append(cycle)
            last = self.home(thread, core.wave - 1)
            across = self.shape.between(last, self.home(thread, core.wave, last))
            self.opened[thread] = cycle + self.machine["buffer.handover"] + across

    def comes(self, i: int, j: int, home: int | None, left: int) -> int:
        """When an operand comes that leaves an instruction, or the store buffer of a cluster, for another one."""
        here, there = self.flat.place[i], self.flat.place[j]
        if home is None:
            return left + self.shape.way(here, there)[1] + self.links(self.shape.links(here, there), left)
        return left + self.shape.to_buffer(there, home) + self.links(self.shape.buffer_links(there, home, 1), left)

    def match(self, thread: int, event: Event, full: bool) -> None:
        """A token comes, and perhaps its instance fires."""
        cycle, _, wave, i, port = event
        came, machine = self.sent.pop((wave, i, port)), self.machine
        element, core = self.flat.place[i], self.cores[thread]
        exact = self.exact and (self.linked or not any(self.shape.widths))
        self.want(cycle >= came, f"before cycle {came}", event)
        if not full:
            # behind an answer of the cache the least that it may take is known alone
            self.want(cycle == came or not exact or machine["cache.sets"] and cycle > came, "late", event)
            return
        self.want(wave < core.wave + machine["waves"], "a wave that isn't in flight", event)
        self.want((element, cycle) not in self.fires, "the element fires twice", event)
        self.fires[element, cycle] = wave, i
        self.want((element, cycle) not in self.blocked, "the element is busy", event)
        if not machine["operations.pipelined"]:
            self.blocked |= {(element, cycle + later) for later in range(1, self.work(i) + 1)}
        since = max(came, self.turn[thread][max(wave - machine["waves"] + 1, 0)])
        if exact and not machine["cache.sets"]:
            for idle in range(since, cycle):
                other = self.fires.get((element, idle), (wave, i)) < (wave, i) or (element, idle) in self.blocked
                self.want(other, f"might have fired in {idle}", event)
        if self.flat.instrs[i].note:
            self.ask(thread, wave, i, cycle + self.work(i))

    def ask(self, thread: int, wave: int, i: int, left: int) -> None:
        """A request leaves for the store buffer of its wave."""
        element = self.flat.place[i]
        own, way = element // self.shape.cluster, 0
        if self.machine["buffer.homes"] == "table":
            home = self.bound.setdefault((thread, wave), own)
            way = self.machine["network.buffer"] + self.shape.between(own, home)
            if (thread, wave, own) not in self.told:
                self.told.add((thread, wave, own))
                way += self.machine["buffer.lookup"] + 2 * self.shape.between(own, wave % self.shape.clusters)
        else:
            home = self.home(thread, wave)
            way = self.shape.to_buffer(element, home)
        waits = self.links(self.shape.buffer_links(element, home, 0), left)
        self.asked[wave, i] = left + way + waits + self.machine["buffer.latency"]

    def issue(self, thread: int, event: Event, is_next: bool) -> None:
        """A request is issued."""
        cycle, _, wave, i = event
        home, came, limit = self.home(thread, wave), self.asked.pop((wave, i)), self.machine["buffer.issues"] or 10**9
        self.want(cycle >= came, "before the request came", event)
        self.want(cycle >= self.opened[thread], "before the turn was handed over", event)
        if is_next and self.known and (self.linked or not any(self.shape.widths)):
            for idle in range(max(came, self.opened[thread], self.moved[thread]), cycle):
                self.want(self.issues.get((home, idle)) == limit, f"might have been issued in {idle}", event)
        self.issues[home, cycle] = self.issues.get((home, cycle), 0) + 1
        self.want(self.issues[home, cycle] <= limit, "too many issues", event)


def broken(run: Run, machine: Values) -> list[str]:
    """The rules that the events of a run break, in words."""
    rules = Rules(run, machine)
    try:
        for event in timed(run):
            rules.event(event)
    except Illegal:
        return ["an event that isn't enabled"]
    return rules.wrong
