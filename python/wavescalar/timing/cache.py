"""A data cache: sets of lines, of which each keeps those that were used last."""

from __future__ import annotations

from wavescalar.timing.parameters import Values


class Cache:
    """One cache, or one in each cluster. It says how many cycles an access takes, and counts; it holds no values."""

    def __init__(self, machine: Values, clusters: int) -> None:
        self.sets, self.ways, self.line = (machine[f"cache.{name}"] for name in ("sets", "ways", "line"))
        self.hit, self.miss = machine["cache.hit"], machine["cache.miss"]
        self.shared = machine["cache.shared"]
        count = 1 if self.shared else clusters
        self.rows: list[list[dict[int, bool]]] = [[{} for _ in range(self.sets)] for _ in range(count)]
        self.counts = {"load hits": 0, "load misses": 0, "store hits": 0, "store misses": 0}

    def access(self, what: str, cell: int, cluster: int) -> int:
        """The cycles of a `load` or `store` of a cell, by its number among all cells, from a cluster."""
        if not self.sets:
            return int(self.hit)
        line, own = cell // self.line, 0 if self.shared else cluster
        row = self.rows[own][line % self.sets]
        found = row.pop(line, False)
        row[line] = True
        if len(row) > self.ways:
            del row[next(iter(row))]
        if what == "store" and len(self.rows) > 1:
            self.take_from_others(own, line)
        self.counts[f"{what} {'hits' if found else 'misses'}"] += 1
        return int(self.hit if found else self.miss)

    def take_from_others(self, own: int, line: int) -> None:
        """A store takes the line from the caches of the other clusters."""
        for other, rows in enumerate(self.rows):
            if other != own:
                rows[line % self.sets].pop(line, None)
