"""The figures of a run: names and numbers, from its record. Times are in cycles."""

from __future__ import annotations

from typing import Any

from wavescalar.timing.causes import Path
from wavescalar.timing.engine import Run
from wavescalar.timing.shape import CLASSES


def share(part: float, whole: float) -> float:
    """A part of the whole, which may be nothing."""
    return part / whole if whole else 0.0


def end_of(run: Run, number: int) -> str:
    """How a thread ends."""
    if (fault := run.chains[number].fault) is not None:
        return f"fault {fault}"
    return "budget" if run.full and run.fired == run.budget else "halt"


class Figures:
    """All figures of a run."""

    def __init__(self, run: Run) -> None:
        self.run, self.flat, self.record = run, run.flat, run.record
        self.cycles, self.firings = run.record.cycles, run.fired
        self.path = Path(run)
        self.ends = [end_of(run, number) for number in range(len(run.chains))]
        self.end = ", ".join(dict.fromkeys(self.ends))
        self.operands = [0] * len(CLASSES)
        # the cycles of all tokens' ways where they wait for no link
        self.way_cycles = 0
        for arcs in self.flat.lists:
            self.way_cycles += arcs.used * sum(cycles for _, cycles in arcs.to)
            for kind, many in enumerate(arcs.kinds):
                self.operands[kind] += arcs.used * many
        self.memory = self.of_memory()

    def of_memory(self) -> dict[str, list[int]]:
        """For each kind of memory operation: how many, how many of them early, and how long they waited, from the
        firing to the issue: all, at most, and of it for their turn, once the store buffer might have issued them."""
        made: dict[str, list[int]] = {}
        record, told = self.record, self.record.issued
        for event, fired, could, early in zip(told[::4], told[1::4], told[2::4], told[3::4]):
            row = made.setdefault(self.flat.op[record.key[event] % self.flat.count], [0, 0, 0, 0, 0])
            wait = record.when[event] - record.when[fired]
            row[0] += 1
            row[1] += early
            row[2] += wait
            row[3] = max(row[3], wait)
            row[4] += record.when[event] - could
        return dict(sorted(made.items()))

    def critical(self) -> str:
        """The part that most of the path's cycles go to."""
        return max(self.path.parts, key=lambda part: self.path.parts[part])

    def facts(self) -> dict[str, Any]:
        """The figures of the whole run."""
        record, run, count = self.record, self.run, self.flat.shape.count
        used = [e for e in range(count) if record.fires[e]]
        tokens, cycles = sum(self.operands), self.cycles
        busiest = max(range(count), key=lambda e: record.fires[e])
        waits = [sum(row[k] for row in self.memory.values()) for k in (0, 2, 4)]
        return {
            "cycles": cycles, "firings": self.firings, "issues": waits[0], "threads": len(run.chains),
            "firings a cycle": share(self.firings, cycles),
            "critical": self.critical(),
            "all elements": count, "elements used": len(used),
            "utilisation": share(sum(record.busy), cycles * count),
            "utilisation of those used": share(sum(record.busy), cycles * len(used)),
            "busiest element": busiest, "its utilisation": share(record.busy[busiest], cycles),
            "operands": tokens, "operand latency": share(self.way_cycles, tokens),
            "ready, mean": share(sum(record.waited), cycles),
            "ready, most of an element": max(record.most_ready),
            "wait for an element": share(sum(record.waited), self.firings),
            "matching, mean": share(sum(record.stayed), cycles),
            "matching, most of an element": max(record.most_in),
            "matching misses": sum(record.misses), "put off": sum(record.put_off),
            "swaps": run.stock.swaps, "lookups": run.homes.asked,
            "addresses alone": sum(record.fires) - self.firings,
            "wave numbers": sum(chain.wave - 1 for chain in run.chains),
            **run.cache.counts,
            "early loads": self.memory.get("load", [0, 0])[1],
            "memory wait": share(waits[1], waits[0]), "memory wait for the chain": share(waits[2], waits[0]),
        }
