"""Where everything stands: a layered layout of each block, blocks in bands, waves beside each other.

A net is one list of destinations with its source. In a block a net is a chain of points from the row of its
source, or from the block's top, down to the row above its lowest destination, or to the block's bottom;
each destination hangs on the point above it. Destinations that are advances are drawn as stubs: short
ends that name them, since the token goes on in the next wave.
"""

from __future__ import annotations

from bisect import bisect_right, insort
from typing import Any, Iterable, Sequence

from wavescalar.numbered import Dest, Image

NODE_H, MEM_H, ROW_GAP, GAP, CHAR = 30, 44, 40, 22, 7.4
# A block with so many links is ordered in fewer turns.
MANY = 3000
PAD, BAND_GAP, LANE, WAVE_GAP = 20, 44, 12, 70
# A source of tokens: `pad` with block and pad, or `out` with instruction and list.
Source = tuple[str, int, int]
# Places that items are joined to outside of a block, by item and whether they are above; and an order with places.
Outer = dict[tuple[Any, bool], list[float]]
Kept = tuple[list[list[Any]], dict[Any, float]]


class Item:
    """A node, a pad, a stub, or a point of a net in a row of a block."""

    def __init__(self, kind: str, key: Any, width: float = 1):
        self.kind, self.key, self.width, self.x, self.y, self.height = kind, key, width, 0.0, 0.0, 0

    def to(self, x: float) -> Item:
        """The same at a place."""
        self.x = x
        return self


def inversions(pairs: Iterable[tuple[float, float]]) -> int:
    """How many of these lines from one place above to one below cross."""
    seen: list[float] = []
    count = 0
    for _, low in sorted(pairs):
        count += len(seen) - bisect_right(seen, low)
        insort(seen, low)
    return count


def settle(wants: Sequence[float], widths: Sequence[float]) -> list[float]:
    """The places in this order that are nearest to the wanted ones and keep their distances."""
    shift, offsets = 0.0, list[float]()
    for k, width in enumerate(widths):
        shift += (widths[k - 1] + width) / 2 if k else 0
        offsets.append(shift)
    # places with how many stand together at each
    pools: list[tuple[float, int]] = []
    for want, offset in zip(wants, offsets):
        pools.append((want - offset, 1))
        while len(pools) > 1 and pools[-2][0] > pools[-1][0]:
            (a, m), (b, n) = pools[-2:]
            pools[-2:] = [((a * m + b * n) / (m + n), m + n)]
    flat = [place for place, count in pools for _ in range(count)]
    return [place + offset for place, offset in zip(flat, offsets)]


def label_of(image: Image, number: int) -> str:
    """What an instruction does, with its argument."""
    it = image.instrs[number]
    arg = it.arg
    if it.op in ("load", "store"):
        arg = image.arrays[arg][0] or f"hidden {arg}"
    return str(it.op) if arg is None else f"{it.op} {arg}"


def note_text(note: Any) -> str:
    """A note as the assembly has it."""
    return "" if note is None else f"<{note[0]}, {note[1]}, {note[2]}>.{note[3]}"


class BlockPlan:
    """The rows of one block, and where they stand within it."""

    def __init__(self, image: Image, number: int, nets: list[Net]):
        self.image, self.number, self.block = image, number, image.blocks[number]
        # by instruction, or `pad` and its number; by net its points by their rows; from one item to one below
        self.nodes: dict[Any, Item] = {}
        self.chains: dict[Net, dict[int, Item]] = {}
        self.links: list[tuple[Item, Item]] = []
        self.layer_nodes(nets)
        self.make_rows(nets)
        row_of = {item: k for k, row in enumerate(self.rows) for item in row}
        # the links by the row of their upper ends
        self.below: dict[int, list[tuple[Item, Item]]] = {}
        for link in self.links:
            self.below.setdefault(row_of[link[0]], []).append(link)
        self.order()
        self.place()

    def layer_nodes(self, nets: list[Net]) -> None:
        """Each instruction stands below what it takes from this block; constants right above their use."""
        inside = set(self.block.instrs)
        base = 1 if self.block.pads else 0
        self.layer: dict[int, int] = {}
        users: dict[int, list[int]] = {}
        last = 0
        for net in nets:
            if net.source[0] == "out" and net.source[1] in inside:
                for i, _ in net.inner:
                    if i in inside:
                        users.setdefault(net.source[1], []).append(i)
        for i in self.block.instrs:
            self.layer[i] = max(self.layer.get(i, 0), base)
            if self.image.instrs[i].note:
                last = self.layer[i] = max(self.layer[i], last)
            for user in users.get(i, []):
                self.layer[user] = max(self.layer.get(user, 0), self.layer[i] + 1)
        for i in reversed(self.block.instrs):
            if self.image.instrs[i].op == "const" and users.get(i):
                self.layer[i] = max(self.layer[i], min(self.layer[u] for u in users[i]) - 1)

    def make_rows(self, nets: list[Net]) -> None:
        """Items in the rows of their layers, and the links between them."""
        depth = max(self.layer.values(), default=0)
        self.rows: list[list[Item]] = [[] for _ in range(depth + 1)]
        for k in self.block.pads:
            self.add(0, Item("pad", k, 46))
        for i in self.block.instrs:
            it = self.image.instrs[i]
            text = max(len(f"{it.name or i} {label_of(self.image, i)}") + 1, len(note_text(it.note)))
            self.add(self.layer[i], Item("node", i, max((50, 66, 96)[it.ports - 1], text * CHAR + 12)))
        stubs = []
        for net in nets:
            row, below, stub = net.rows_in(self, depth)
            if row is None:
                continue
            points = self.chains[net] = {}
            for at in range(row + 1, below + 1):
                points[at] = self.add(at, Item("point", net, 8))
            if stub:
                item = Item("stub", net, max(34, len(net.stub_text()) * 6.2 + 8))
                points[depth + 1] = item
                stubs.append(item)
        self.ways = {}
        if stubs:
            # what goes on below the block passes the row of stubs beside them
            for net in nets:
                if net.home == self.number and net.blocks - {self.number}:
                    self.ways[net] = Item("point", net, 8)
            self.rows.append([*stubs, *self.ways.values()])
        self.depth = depth
        for net, points in self.chains.items():
            source = net.item_in(self)
            chain = ([source] if source else []) + [points[k] for k in sorted(points)]
            self.links += list(zip(chain, chain[1:]))
            if net in self.ways:
                last = [it for it in chain if it.kind != "stub"]
                self.links += [(last[-1], self.ways[net])] if last else []
            for i, p in net.inner:
                if i in self.layer:
                    above = points.get(self.layer[i] - 1) or source
                    if above:
                        self.links.append((above, self.nodes[i]))

    def add(self, row: int, item: Item) -> Item:
        """Puts an item into a row."""
        self.rows[row].append(item)
        if item.kind == "node":
            self.nodes[item.key] = item
        elif item.kind == "pad":
            self.nodes["pad", item.key] = item
        return item

    def order(self, outer: Outer | None = None) -> None:
        """Barycentres, down and up in turn; then places by the mean of the neighbours. Once blocks have places,
        `outer` has those, above or below the block, that items are joined to: lists by `(item, is above)`."""
        sides: dict[bool, dict[Item, list[Item]]] = {True: {}, False: {}}
        for a, b in self.links:
            sides[False].setdefault(a, []).append(b)
            sides[True].setdefault(b, []).append(a)
        for (item, above), places in (outer or {}).items():
            sides[above].setdefault(item, []).extend(Item("fixed", None).to(x) for x in places)
        for row in self.rows if outer is None else ():
            for k, item in enumerate(row):
                item.x = k * 60.0

        def mean(item: Item, above: bool) -> float:
            near = sides[above].get(item)
            return sum(other.x for other in near) / len(near) if near else item.x

        def sweep(above: bool, sort: bool) -> None:
            for row in self.rows if above else reversed(self.rows):
                wants = [mean(it, above) for it in row]
                if sort:
                    places = sorted(range(len(row)), key=wants.__getitem__)
                    row[:], wants = [row[k] for k in places], [wants[k] for k in places]
                for item, x in zip(row, settle(wants, [it.width + GAP for it in row])):
                    item.x = x

        best, kept = 0, self.kept()
        for turn in range(20 if len(self.links) < MANY else 6):
            sweep(turn % 2 == 0, True)
            found = self.crossings()
            if turn == 0 or found < best:
                best, kept = found, self.kept()
        self.rows = kept[0]
        for item, x in kept[1].items():
            item.x = x
        self.swap()
        for turn in range(10 if len(self.links) < MANY else 4):
            sweep(turn % 2 == 0, False)

    def swap(self) -> None:
        """Swaps neighbours in a row as long as fewer links cross."""
        near: dict[Item, tuple[list[Item], list[Item]]] = {}
        for a, b in self.links:
            near.setdefault(a, ([], []))[1].append(b)
            near.setdefault(b, ([], []))[0].append(a)

        def crossing(left: Item, right: Item) -> int:
            return sum(p.x > q.x for side in (0, 1) for p in near.get(left, ((), ()))[side]
                       for q in near.get(right, ((), ()))[side])

        for _ in range(4):
            moved = False
            for row in self.rows:
                for k in range(len(row) - 1):
                    left, right = row[k], row[k + 1]
                    if crossing(right, left) < crossing(left, right):
                        row[k : k + 2] = right, left
                        left.x, right.x = right.x, left.x
                        moved = True
            if not moved:
                return

    def crossings(self) -> int:
        """How many links cross within the block."""
        return sum(inversions([(a.x, b.x) for a, b in links]) for links in self.below.values())

    def kept(self) -> Kept:
        """The order and places as they are, to come back to."""
        return [list(row) for row in self.rows], {it: it.x for row in self.rows for it in row}

    def back(self, kept: Kept) -> None:
        """Goes back to an order and places."""
        self.rows = [list(row) for row in kept[0]]
        for item, x in kept[1].items():
            item.x = x
        self.place()

    def place(self) -> None:
        """Rows below each other, and the size of the block."""
        items = [it for row in self.rows for it in row]
        low = min((it.x - it.width / 2 for it in items), default=0)
        high = max((it.x + it.width / 2 for it in items), default=80)
        self.width = max(high - low, 150) + 2 * PAD
        y = 40.0
        for row in self.rows:
            for it in row:
                it.x += PAD - low
                it.height = {"point": 0, "stub": 16, "pad": 22}.get(it.kind, NODE_H)
                if it.kind == "node" and self.image.instrs[it.key].note:
                    it.height = MEM_H
            tall = max((it.height for it in row), default=0)
            for it in row:
                it.height = tall if it.kind == "point" else it.height
                it.y = y + (tall - it.height) / 2
            y += tall + ROW_GAP
        self.height = y - ROW_GAP + 30


class Net:
    """A source with its destinations: `inner` in the same wave below, `crossing` into advances."""

    def __init__(self, image: Image, source: Source, dests: list[Dest], home: int):
        self.image, self.source, self.dests, self.home = image, source, dests, home

        def is_cross(i: int) -> bool:
            return source[0] == "out" and image.instrs[i].op == "advance"

        self.inner = [(i, p) for i, p in dests if not is_cross(i)]
        self.crossing = [(i, p) for i, p in dests if is_cross(i)]
        self.blocks = {image.instrs[i].block for i, _ in self.inner}
        self.pads: str | None = None

    def stub_text(self) -> str:
        """What stands at the end of a stub."""
        if self.pads is not None:
            return self.pads
        return "⤳ " + " ".join(f"{i}.{p}" for i, p in self.crossing)

    def rows_in(self, plan: BlockPlan, depth: int) -> tuple[int | None, int, bool]:
        """The row of the source (-1 the top), the last row with a point, and whether it ends in a stub."""
        here = plan.number == self.home
        inside = [plan.layer[i] for i, _ in self.inner if i in plan.layer]
        if not here and not inside:
            return None, 0, False
        row = -1
        if here:
            row = 0 if self.source[0] == "pad" else plan.layer[self.source[1]]
        stub = here and bool(self.crossing or self.pads)
        goes = here and self.blocks - {plan.number}
        return row, depth if stub or goes else max(inside) - 1 if inside else row, stub

    def item_in(self, plan: BlockPlan) -> Any:
        """Its source, where that is in this block; else nothing."""
        if plan.number != self.home:
            return None
        return plan.nodes["pad", self.source[2]] if self.source[0] == "pad" else plan.nodes[self.source[1]]


def nets_of(image: Image) -> dict[Source, Net]:
    """All nets, by source; a `send` has one that only tells where it goes."""
    nets = {}
    for b, block in enumerate(image.blocks[1:], 1):
        for k, dests in block.pads.items():
            nets["pad", b, k] = Net(image, ("pad", b, k), dests, b)
        for i in block.instrs:
            it = image.instrs[i]
            for way, dests in enumerate(it.lists):
                if dests or it.op == "send" and way == 0:
                    nets["out", i, way] = Net(image, ("out", i, way), dests, b)
            if it.op == "send":
                blocks = image.blocks[it.block].exit[2:]
                told = " ".join(map(str, blocks)) if len(blocks) < 5 else f"{blocks[0]} … {blocks[-1]}"
                nets["out", i, 0].pads = f"⤳ pad {it.arg} of {told}"
    return nets
