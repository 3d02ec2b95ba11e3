"""Where elements lie, how far it is from one to another, and which links lie between them.

Elements are numbered through pods, domains and clusters, so that neighbours by number are neighbours in place. Ways
are in cycles, hops are between clusters that are next to each other on the mesh.
"""

from __future__ import annotations

from collections.abc import Iterator

from wavescalar.timing.parameters import Values

CLASSES = ("element", "pod", "domain", "cluster", "between", "buffer")
ELEMENT, POD, DOMAIN, CLUSTER, BETWEEN, BUFFER = range(6)

# A link: its class, a number in it, and where it is one of several there, which.
Link = tuple[int, int, int]


class Shape:
    """The elements of a machine."""

    def __init__(self, machine: Values) -> None:
        self.machine = machine
        self.pod: int = machine["elements"]
        self.domain: int = self.pod * machine["pods"]
        self.cluster: int = self.domain * machine["domains"]
        self.clusters: int = machine["clusters"]
        self.count = self.cluster * self.clusters
        self.columns: int = machine["columns"] or next(
            k for k in range(1, self.clusters + 1) if k * k >= self.clusters)
        self.near: list[int] = [machine[f"network.{name}"] for name in CLASSES[:4]]
        # operands a cycle of a link of each class; 0: any number
        self.widths: list[int] = [0, *(machine[f"width.{name}"] for name in CLASSES[1:])]

    def hops(self, a: int, b: int) -> int:
        """Hops of the mesh from one cluster to another."""
        columns = self.columns
        return abs(a % columns - b % columns) + abs(a // columns - b // columns)

    def across(self, a: int, b: int) -> int:
        """Cycles from one cluster to another, which is another one."""
        return int(self.machine["network.between"] + self.machine["network.hop"] * self.hops(a, b))

    def between(self, a: int, b: int) -> int:
        """Cycles from one cluster to another, or to itself, which takes none."""
        return self.across(a, b) if a != b else 0

    def kind(self, a: int, b: int) -> int:
        """The class of the way from one element to another: the least piece of the machine with both."""
        if a == b:
            return ELEMENT
        sizes = ((POD, self.pod), (DOMAIN, self.domain), (CLUSTER, self.cluster))
        return next((kind for kind, size in sizes if a // size == b // size), BETWEEN)

    def way(self, a: int, b: int) -> tuple[int, int]:
        """The class of the way between two elements, and its cycles."""
        kind = self.kind(a, b)
        return kind, self.near[kind] if kind != BETWEEN else self.across(a // self.cluster, b // self.cluster)

    def to_buffer(self, element: int, cluster: int) -> int:
        """Cycles between an element and the store buffer of a cluster."""
        own = element // self.cluster
        return int(self.machine["network.buffer"]) if own == cluster else self.across(own, cluster)

    # A drawing.

    def drawn(self) -> tuple[list[tuple[float, float]], list[tuple[float, float]], float, float, float]:
        """Where elements and clusters lie in a drawing, in sides of an element's square, from the upper left: clusters
        apart on their mesh, in them domains two by two, in them pods side by side; and the width and height of a
        cluster, and the width of a row of clusters."""
        domains = self.cluster // self.domain
        across = next(k for k in range(1, self.domain + 1) if k * k >= 2 * self.domain or k == self.domain)
        down, columns = -(-self.domain // across), 1 if domains == 1 else 2
        wide, high = columns * (across + 0.5), -(-domains // columns) * (down + 0.5)
        corners = [((cluster % self.columns) * (wide + 1), (cluster // self.columns) * (high + 1))
                   for cluster in range(self.clusters)]
        made = []
        for element in range(self.count):
            cluster, rest = divmod(element, self.cluster)
            domain, place = divmod(rest, self.domain)
            (left, top) = corners[cluster]
            made.append((left + (domain % columns) * (across + 0.5) + place % across,
                         top + (domain // columns) * (down + 0.5) + place // across))
        return made, corners, wide, high, min(self.columns, self.clusters) * (wide + 1)

    # Links.

    def mesh(self, a: int, b: int) -> Iterator[Link]:
        """The links from one cluster to another: along the row, then along the column."""
        while a != b:
            across, down = b % self.columns - a % self.columns, b // self.columns - a // self.columns
            step = (1 if across > 0 else -1) if across else self.columns if down > 0 else -self.columns
            yield BETWEEN, a, step
            a += step

    def links(self, a: int, b: int) -> list[Link]:
        """The links from an element to another, in their order, of those that have a width."""
        kind = self.kind(a, b)
        if kind == ELEMENT or not self.widths[kind]:
            return []
        if kind == BETWEEN:
            return list(self.mesh(a // self.cluster, b // self.cluster))
        return [(kind, a // (1, 1, self.pod, self.domain)[kind], 0)]

    def buffer_links(self, element: int, cluster: int, back: int) -> list[Link]:
        """Likewise from an element to the store buffer of a cluster, or back."""
        own = element // self.cluster
        if own == cluster:
            return [(BUFFER, element // self.domain, back)] if self.widths[BUFFER] else []
        ends = (cluster, own) if back else (own, cluster)
        return list(self.mesh(*ends)) if self.widths[BETWEEN] else []


class Links:
    """How many operands are on each link in each cycle."""

    # so many entries of a link are kept before those of cycles that are over are let go
    MOST = 4096

    def __init__(self, shape: Shape) -> None:
        self.widths, self.hop = shape.widths, shape.machine["network.hop"]
        # of a link, cycles with some operands, and of full cycles a later one
        self.some: dict[Link, dict[int, int]] = {}
        self.full: dict[Link, dict[int, int]] = {}

    def claim(self, link: Link, cycle: int, now: int) -> int:
        """The first cycle from this one on in which the link has room, of which the operand takes a part; `now` is
        the present cycle."""
        some, full = self.some.setdefault(link, {}), self.full.setdefault(link, {})
        free = cycle
        while free in full:
            free = full[free]
        if free != cycle:
            full[cycle] = free
        many = some.get(free, 0) + 1
        if many < self.widths[link[0]]:
            some[free] = many
        else:
            some.pop(free, None)
            full[free] = free + 1
        if len(some) + len(full) > self.MOST:
            self.some[link] = {key: value for key, value in some.items() if key >= now}
            self.full[link] = {key: value for key, value in full.items() if key >= now}
        return free

    def wait(self, links: list[Link], left: int, now: int) -> int:
        """The cycles that an operand which leaves in a cycle waits for these links, one hop behind the other."""
        at = left
        for step, link in enumerate(links):
            at = self.claim(link, at + (self.hop if step else 0), now)
        return int(at - left - self.hop * max(len(links) - 1, 0))
