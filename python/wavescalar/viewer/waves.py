"""The layout of a wave from its blocks, and of all waves; makes the drawing's data."""

from __future__ import annotations

from typing import Any, Iterator

from wavescalar.numbered import Image

from wavescalar.viewer.layout import (
    BAND_GAP, LANE, MEM_H, WAVE_GAP, BlockPlan, Item, Net, Outer, Source, inversions, label_of, nets_of, note_text,
    settle,
)

# All that is drawn, by kind: lists of what each part is, with places and sizes in the units of SVG.
Drawing = dict[str, list[list[Any]]]
# A place on an arc: x, and from where to where it runs straight down.
Spot = tuple[float, float, float]
WAVE_PAD, WAVE_HEAD, SIDE = 22, 40, 18
KINDS = ("steer", "advance", "send", "phi", "merge", "const")


class BandItem:
    """A block in its band, or the lane of a net that passes the band; `x` is its middle."""

    def __init__(self, block: int | None, net: Net | None, width: float):
        self.block, self.net, self.width, self.x = block, net, width, 0.0


class WavePlan:
    """A wave: its blocks in bands below each other, in each of which blocks and lanes are ordered by the mean of
    what they are joined to, down and up in turn, and of all orders that with the fewest crossings is taken."""

    def __init__(self, image: Image, wave: int, nets: dict[Source, Net]):
        self.image, self.wave = image, wave
        self.numbers = [b for b in range(1, len(image.blocks)) if image.blocks[b].wave == wave]
        self.nets = [n for n in nets.values() if n.home in self.numbers]
        self.plans = {b: BlockPlan(image, b, self.nets) for b in self.numbers}
        self.bands()
        self.arrange()
        if len(self.rows) > 1:
            self.turn_blocks()
        self.put()
        self.fit()

    def arrange(self) -> None:
        """Puts blocks and lanes in order and in place."""
        self.make_items()
        self.join()
        self.order()
        self.settle()

    def turn_blocks(self) -> None:
        """Orders each block anew by where its nets come from and go to; keeps that where fewer lines cross."""
        for _ in range(3):
            before = self.all_crossings()
            kept = {b: plan.kept() for b, plan in self.plans.items()}
            outer: dict[int, Outer] = {b: {} for b in self.plans}
            for (high, at), (low, to), net in (link for links in self.links for link in links):
                if high.block:
                    left = high.x - high.width / 2
                    outer[high.block].setdefault((self.last_of(net), False), []).append(low.x + to - left)
                if low.block:
                    left = low.x - low.width / 2
                    for first in self.firsts_of(net, low.block):
                        outer[low.block].setdefault((first, True), []).append(high.x + at - left)
            for b, plan in self.plans.items():
                plan.order(outer[b])
                plan.place()
            self.arrange()
            if self.all_crossings() >= before:
                for b, plan in self.plans.items():
                    plan.back(kept[b])
                self.arrange()
                return

    def all_crossings(self) -> int:
        """How many lines cross, between blocks and within them."""
        return self.crossings() + sum(plan.crossings() for plan in self.plans.values())

    def bands(self) -> None:
        """The band of each block: as deep as the longest way to it."""
        first = self.numbers[0]
        self.band: dict[int, int] = {}
        for b in self.numbers:
            mine = self.band.setdefault(b, 0)
            exit = self.image.blocks[b].exit
            for to in exit[1:] if exit[0] == "go" else exit[2:]:
                if to in self.plans and to != first:
                    self.band[to] = max(self.band.get(to, 0), mine + 1)
        self.depth = max(self.band.values()) + 1

    def make_items(self) -> None:
        """Blocks in their bands."""
        self.items: dict[Any, BandItem] = {b: BandItem(b, None, self.plans[b].width) for b in self.numbers}
        self.rows = [[self.items[b] for b in self.numbers if self.band[b] == k] for k in range(self.depth)]

    def join(self) -> None:
        """The lanes of nets, and links between bands: an item and the place at it, above and below, and the net."""
        self.links: list[list[tuple[Any, Any, Net]]] = [[] for _ in self.rows]
        for net in self.nets:
            below = sorted(self.band[b] for b in net.blocks if b != net.home and b in self.band)
            last = below[-1] if below else 0
            above = (self.items[net.home], self.leaves(net))
            for k in range(self.band[net.home] + 1, last + 1):
                for b in net.blocks:
                    if b != net.home and self.band.get(b) == k:
                        self.links[k].append((above, (self.items[b], self.enters(net, b)), net))
                if k < last:
                    lane = BandItem(None, net, LANE)
                    self.rows[k].append(lane)
                    self.items[net, k] = lane
                    self.links[k].append((above, (lane, 0.0), net))
                    above = lane, 0.0

    def last_of(self, net: Net) -> Item:
        """What a net leaves its block from."""
        plan = self.plans[net.home]
        points = [it for _, it in sorted(plan.chains.get(net, {}).items()) if it.kind == "point"]
        last: Item = plan.ways.get(net) or (points[-1] if points else net.item_in(plan))
        return last

    def firsts_of(self, net: Net, block: int) -> list[Item]:
        """What it comes to first in another block."""
        plan = self.plans[block]
        points = [it for _, it in sorted(plan.chains[net].items()) if it.kind == "point"]
        return points[:1] or [plan.nodes[i] for i, _ in net.inner if i in plan.layer]

    def leaves(self, net: Net) -> float:
        """Where a net leaves its block, from the block's middle."""
        return self.last_of(net).x - self.plans[net.home].width / 2

    def enters(self, net: Net, block: int) -> float:
        """Where it comes into another block."""
        ends = [it.x for it in self.firsts_of(net, block)]
        return sum(ends) / len(ends) - self.plans[block].width / 2

    def crossings(self) -> int:
        """How many lines between bands cross."""
        return sum(inversions([(a.x + at, b.x + to) for (a, at), (b, to), _ in links]) for links in self.links)

    def mean(self, item: BandItem, above: bool) -> float:
        """The mean of where an item's links want it, from above or from below; itself where it has none."""
        wants = self.wants[above].get(item)
        return sum(other.x + shift for other, shift in wants) / len(wants) if wants else item.x

    def pack(self, row: list[BandItem]) -> None:
        """Items beside each other, in their order."""
        for item, x in zip(row, settle([it.x for it in row], [it.width + SIDE for it in row])):
            item.x = x

    def order(self) -> None:
        """The order in each band, of those tried that with the fewest crossings."""
        self.wants: dict[bool, dict[BandItem, list[tuple[BandItem, float]]]] = {True: {}, False: {}}
        for links in self.links:
            for (a, at), (b, to), _ in links:
                self.wants[True].setdefault(b, []).append((a, at - to))
                self.wants[False].setdefault(a, []).append((b, to - at))
        for row in self.rows:
            self.pack(row)
        best, kept = self.crossings(), [list(row) for row in self.rows]
        for turn in range(16):
            down = turn % 2 == 0
            for row in self.rows if down else reversed(self.rows):
                for item in row:
                    item.x = self.mean(item, down)
                row.sort(key=lambda item: item.x)
                self.pack(row)
            if (found := self.crossings()) < best:
                best, kept = found, [list(row) for row in self.rows]
        self.rows = kept

    def settle(self) -> None:
        """Keeps the order, and moves all near to what they are joined to."""
        for row in self.rows:
            for item, x in zip(row, settle([0.0] * len(row), [it.width + SIDE for it in row])):
                item.x = x
        for turn in range(10):
            down = turn % 2 == 0
            for row in self.rows if down else reversed(self.rows):
                for item in row:
                    item.x = self.mean(item, down)
                self.pack(row)

    def put(self) -> None:
        """Bands below each other."""
        y: float = WAVE_HEAD
        self.at: dict[int, tuple[float, float]] = {}
        self.band_y: list[tuple[float, float]] = []
        self.lane: dict[tuple[Net | None, int], float] = {}
        for k, row in enumerate(self.rows):
            blocks = [item.block for item in row if item.block]
            for item in row:
                if item.block:
                    self.at[item.block] = (item.x - item.width / 2, y)
                else:
                    self.lane[item.net, k] = item.x
            tall = max(self.plans[b].height for b in blocks)
            self.band_y.append((y, y + tall))
            many = len(self.links[k + 1]) if k + 1 < len(self.rows) else 0
            y += tall + (min(BAND_GAP + 4 * many, 140) if k + 1 < len(self.rows) else 0)
        self.height = y + WAVE_PAD

    def fit(self) -> None:
        """Moves all to the right of the wave's frame, whose width it sets."""
        lefts = [x for x, _ in self.at.values()] + list(self.lane.values())
        rights = [x + self.plans[b].width for b, (x, _) in self.at.items()] + list(self.lane.values())
        shift = WAVE_PAD - min(lefts)
        self.at = {b: (x + shift, y) for b, (x, y) in self.at.items()}
        self.lane = {key: x + shift for key, x in self.lane.items()}
        self.width = max(max(rights) + shift + WAVE_PAD, 260)

    def port(self, i: int, p: int, ox: float, oy: float) -> tuple[float, float]:
        """Where a port stands."""
        it, item = self.image.instrs[i], self.plans[self.image.instrs[i].block].nodes[i]
        bx, by = self.at[it.block]
        share = (p + 0.5) / it.ports
        return ox + bx + item.x + item.width * (share - 0.5), oy + by + item.y

    def arcs(self, ox: float, oy: float) -> Iterator[tuple[Any, list[Spot], str]]:
        """The paths of all arcs: key, points as (x, top, bottom), and `select` for a selector's, `stub` for one that
        ends where its token leaves the wave."""
        for net in self.nets:
            start = self.start(net, ox, oy)
            for place, (i, p) in enumerate(net.dests):
                if (i, p) in net.crossing:
                    yield (*net.source, place), [start, *self.to_stub(net, ox, oy)], "stub"
                    continue
                op = self.image.instrs[i].op
                selects = (op, p) in (("steer", 1), ("phi", 2), ("send", 0))
                yield (*net.source, place), [start, *self.to_port(net, i, p, ox, oy)], "select" if selects else ""
            if net.source[0] == "out" and self.image.instrs[net.source[1]].op == "send":
                yield (*net.source, -1), [start, *self.to_stub(net, ox, oy)], "stub"

    def start(self, net: Net, ox: float, oy: float) -> Spot:
        """Where a net begins: below its source, for a steer on the side of its list."""
        item, (bx, by), share = net.item_in(self.plans[net.home]), self.at[net.home], 0.5
        if net.source[0] == "out" and self.image.instrs[net.source[1]].op == "steer":
            share = 0.3 if net.source[2] == 0 else 0.7
        low = oy + by + item.y + item.height
        return ox + bx + item.x + item.width * (share - 0.5), low, low

    def trail(self, net: Net, block: int, upto: int, ox: float, oy: float) -> list[Spot]:
        """The points of a net in a block, down to a row."""
        points, (bx, by) = self.plans[block].chains.get(net, {}), self.at[block]
        return [(ox + bx + points[k].x, oy + by + points[k].y, oy + by + points[k].y + points[k].height)
                for k in sorted(points) if k <= upto and points[k].kind == "point"]

    def to_stub(self, net: Net, ox: float, oy: float) -> list[Spot]:
        """From below a source to where its token leaves the wave."""
        plan, (bx, by) = self.plans[net.home], self.at[net.home]
        stub = plan.chains[net][plan.depth + 1]
        end = (ox + bx + stub.x, oy + by + stub.y - 2, oy + by + stub.y - 2)
        return [*self.trail(net, net.home, plan.depth, ox, oy), end]

    def to_port(self, net: Net, i: int, p: int, ox: float, oy: float) -> list[Spot]:
        """From below a net's source to a port, through the blocks and lanes between."""
        plan, (bx, by), home = self.plans[net.home], self.at[net.home], self.image.instrs[i].block
        x, y = self.port(i, p, ox, oy)
        if home == net.home:
            return [*self.trail(net, home, plan.layer[i] - 1, ox, oy), (x, y, y)]
        path = self.trail(net, net.home, plan.depth, ox, oy)
        if net in plan.ways:
            way = plan.ways[net]
            path.append((ox + bx + way.x, oy + by + way.y, oy + by + way.y + way.height))
        last = path[-1] if path else self.start(net, ox, oy)
        path.append((last[0], last[2], oy + by + plan.height))
        for k in range(self.band[net.home] + 1, self.band[home]):
            top, bottom = self.band_y[k]
            path.append((ox + self.lane[net, k], oy + top - 12, oy + bottom + 12))
        return [*path, *self.trail(net, home, self.plans[home].layer[i] - 1, ox, oy), (x, y, y)]


def path_text(points: list[Spot]) -> str:
    """An SVG path with vertical tangents."""
    out, (x, _, y) = [f"M{points[0][0]:.1f} {points[0][2]:.1f}"], points[0]
    for nx, top, bottom in points[1:]:
        bend = max(10.0, abs(top - y) * 0.5)
        out.append(f"C{x:.1f} {y + bend:.1f} {nx:.1f} {top - bend:.1f} {nx:.1f} {top:.1f}")
        if bottom > top:
            out.append(f"L{nx:.1f} {bottom:.1f}")
        x, y = nx, bottom
    return "".join(out)


def exit_text(image: Image, exit: tuple[Any, ...]) -> str:
    """An exit in words, with names where the text has them."""
    kind, *rest = exit

    def block(b: int) -> str:
        return image.blocks[b].name or str(b)

    if kind == "go":
        return f"go on at block {block(rest[0])}"
    if kind == "if":
        return f"if {image.name_of(rest[0])}: block {block(rest[1])}, else {block(rest[2])}"
    if kind == "send":
        return f"send to block {' '.join(map(block, rest[1:]))} by {image.name_of(rest[0])}"
    return "stop"


def drawing(image: Image) -> Drawing:
    """All that is drawn: waves, blocks, nodes, pads, stubs, arcs, order links; by absolute places."""
    nets, plans = nets_of(image), []
    for wave in range(1, image.waves + 1):
        plans.append(WavePlan(image, wave, nets))
    area = sum((p.width + WAVE_GAP) * (p.height + WAVE_GAP) for p in plans)
    limit, x, y, tall = max((area * 1.9) ** 0.5, max(p.width for p in plans)), 0.0, 0.0, 0.0
    out: Drawing = {k: [] for k in ("waves", "blocks", "nodes", "pads", "stubs", "arcs", "order")}
    for plan in plans:
        if x and x + plan.width > limit:
            x, y, tall = 0.0, y + tall + WAVE_GAP, 0.0
        out["waves"].append([plan.wave, x, y, plan.width, plan.height])
        put_wave(image, plan, x, y, out)
        x, tall = x + plan.width + WAVE_GAP, max(tall, plan.height)
    return out


def put_wave(image: Image, plan: WavePlan, x: float, y: float, out: Drawing) -> None:
    """Adds a wave at a place."""
    for b, block in plan.plans.items():
        bx, by = plan.at[b]
        text = exit_text(image, block.block.exit)
        name = f"block {b}" + (f" {block.block.name}" if block.block.name else "")
        out["blocks"].append([name, x + bx, y + by, block.width, block.height, text])
        for row in block.rows:
            for it in row:
                cx, cy = x + bx + it.x, y + by + it.y
                if it.kind == "node":
                    i = image.instrs[it.key]
                    ports = [plan.port(it.key, p, x, y)[0] for p in range(i.ports)]
                    kind = "memory" if i.note else i.op if i.op in KINDS else "alu"
                    out["nodes"].append([
                        it.key, cx, cy, it.width, it.height, label_of(image, it.key), note_text(i.note),
                        kind, i.line, plan.wave, b, ports, i.name or str(it.key),
                    ])
                elif it.kind == "pad":
                    out["pads"].append([it.key, cx, cy, it.width, it.height])
                elif it.kind == "stub":
                    out["stubs"].append([it.key.stub_text(), cx, cy, it.width])
    for key, points, kind in plan.arcs(x, y):
        out["arcs"].append(["/".join(map(str, key)), path_text(points), kind])
    put_order(image, plan, x, y, out)


def put_order(image: Image, plan: WavePlan, x: float, y: float, out: Drawing) -> None:
    """A line between operations one of which names the other as its successor or predecessor."""
    place, ops = {}, [i for b in plan.numbers for i in image.blocks[b].instrs if image.instrs[i].note]
    for i in ops:
        item, (bx, by) = plan.plans[image.instrs[i].block].nodes[i], plan.at[image.instrs[i].block]
        place[image.instrs[i].note[1]] = (x + bx + item.x, y + by + item.y + MEM_H / 2, item.width)
    links = set()
    for i in ops:
        pred, seq, succ, _ = image.instrs[i].note
        links |= {(pred, seq)} if pred in place else set()
        links |= {(seq, succ)} if succ in place else set()
    for a, b in sorted(links):
        out["order"].append([*place[a], *place[b]])
