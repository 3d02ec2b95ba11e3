"""A run as a picture: six panels, as SVG."""

from __future__ import annotations

from wavescalar.timing.figures import Figures
from wavescalar.timing.shape import CLASSES
from wavescalar.viewer.plot import COLOURS, INK, SOFT, Panel, Sheet, bars

Box = tuple[float, float, float, float]


def by_cycle(figures: Figures, name: str) -> list[int]:
    """A value for each cycle from 1 on; in cycles in which nothing is due nothing fires, and what waits stays."""
    counts = name in ("firings", "issues", "tokens")
    made, last = [0] * max(figures.cycles, 1), 0
    at = 0
    for cycle, value in figures.record.by_cycle(name):
        if cycle > len(made):
            break
        if not counts:
            made[at : cycle - 1] = [last] * (cycle - 1 - at)
        made[cycle - 1], last, at = value, value, cycle
    return made


def over_time(sheet: Sheet, figures: Figures, box: Box, title: str, name: str, colour: str) -> None:
    """A curve over the cycles."""
    values = by_cycle(figures, name)
    panel = Panel(sheet, box, title, "cycle", low=1, high=len(values) + 1, top=max(values))
    panel.ticks(most=5)
    many = panel.stairs(values, colour)
    middle = sum(values) / len(values)
    panel.mean(middle)
    lumped = f"; line: mean of {many} cycles, pale: most" if many > 1 else ""
    panel.note(f"broken: mean of all, {middle:.2f}{lumped}")


def paler(part: float) -> str:
    """A colour between white and the first of the plots."""
    mixed = (round(low + (high - low) * part) for low, high in ((236, 0), (241, 114), (245, 178)))
    return "#" + "".join(f"{value:02x}" for value in mixed)


def elements(sheet: Sheet, figures: Figures, box: Box) -> None:
    """Each element as a square by its place: clusters apart, in them domains, in them pods side by side."""
    x, y, wide, tall = box
    shape, busy = figures.flat.shape, figures.record.busy
    sheet.text(x - 34, y - 25, "Use of the elements", 14, weight=600)
    most = max(max(busy), 1)
    share = 100 * most / max(figures.cycles, 1)
    sheet.text(x - 34, y - 10, f"darkest: busy in {share:.1f}% of the cycles; pale: never or seldom", 11, SOFT)
    places, corners, _, high, across = shape.drawn()
    size = min((wide + 34) / across, tall / (corners[-1][1] + high + 1), 26)
    for (left, top), cycles in zip(places, busy):
        sheet.rect(x - 34 + left * size, y + top * size, size * 0.9, size * 0.9, paler(cycles / most))


def path(sheet: Sheet, figures: Figures, box: Box) -> None:
    """What the cycles go to."""
    parts = sorted(figures.path.parts.items(), key=lambda one: -one[1])
    rows = [(part, cycles, f"{cycles} · {100 * cycles / max(figures.path.end, 1):.0f}%", 0)
            for part, cycles in parts if cycles]
    note = "on the path back from the last event, by what each waited for last"
    bars(sheet, box, "What the cycles go to", rows, note)


def operands(sheet: Sheet, figures: Figures, box: Box) -> None:
    """How far tokens go."""
    total = max(sum(figures.operands), 1)
    rows = [(name, many, f"{many} · {100 * many / total:.0f}%", 0)
            for name, many in zip(CLASSES, figures.operands) if many]
    bars(sheet, box, "How far operands go", rows, "tokens by the least piece of the machine that has both ends")
    f = figures.facts()
    low = box[1] + 24 * len(rows) + 26
    loads = f["load hits"] + f["load misses"]
    told = (
        f"an operand is {f['operand latency']:.2f} cycles on its way",
        f"a complete instance waits {f['wait for an element']:.2f} cycles for its element",
        f"a memory operation waits {f['memory wait']:.2f} cycles, {f['memory wait for the chain']:.2f} for its turn",
        f"{f['load hits']} of {loads} loads hit the cache" if loads else "no load goes through a cache",
    )
    for at, line in enumerate(told):
        sheet.text(box[0] - 34, low + 17 * at, line, 12, INK)


def picture(figures: Figures, title: str, taken: bool = False) -> str:
    """The six panels; `taken` says that wsc has verified the run."""
    f, more = figures.facts(), "; wsc has verified this run" if taken else ""
    sheet = Sheet(1240, 770, title, (
        f"{figures.end}: {f['cycles']} cycles, {f['firings']} firings ({f['firings a cycle']:.2f} a cycle) on"
        f" {f['elements used']} of {f['all elements']} elements, by a timing model{more}",
    ))
    wide, tall = 330, 215
    over_time(sheet, figures, (70, 130, wide, tall), "Firings in each cycle", "firings", COLOURS[0])
    over_time(sheet, figures, (480, 130, wide, tall), "Complete instances that wait", "ready", COLOURS[1])
    over_time(sheet, figures, (480, 470, wide, tall), "Memory requests in the store buffers", "requests", COLOURS[2])
    elements(sheet, figures, (70, 470, wide, tall))
    path(sheet, figures, (890, 130, wide, tall + 14))
    operands(sheet, figures, (890, 470, wide, tall + 14))
    return sheet.svg()
