"""A run's figures as text, as rows of a table, and as JSON."""

from __future__ import annotations

import json
from collections.abc import Iterator, Mapping
from typing import Any

from wavescalar.timing.causes import PARTS
from wavescalar.timing.figures import Figures, share
from wavescalar.timing.parameters import Values
from wavescalar.timing.record import BY_CHAIN, BY_WAVES, ROW
from wavescalar.timing.shape import CLASSES

# the facts that stand in the answer of wsc-sim --stats, which a sweep collects
BRIEF = {
    "cycles": "cycles", "firings": "firings", "issues": "issues", "elements used": "used",
    "operands": "operands", "matching misses": "misses", "swaps": "swaps", "load misses": "loadmisses",
    "early loads": "early",
}


def number(value: Any) -> Any:
    """A number as a table has it."""
    return f"{value:.6g}" if isinstance(value, float) else value


def summary(figures: Figures) -> list[str]:
    """The first lines: what of the run as a whole is told."""
    f, path = figures.facts(), figures.path
    more = f", {f['threads']} threads" if f["threads"] > 1 else ""
    out = [
        f"run         {figures.end}; {f['cycles']} cycles, {f['firings']} firings"
        f" ({f['firings a cycle']:.2f} a cycle), {f['issues']} memory operations, {f['wave numbers']} waves{more}",
        f"elements    {f['elements used']} of {f['all elements']} used; each fires in"
        f" {100 * f['utilisation of those used']:.1f}% of the cycles on the mean, element {f['busiest element']}"
        f" in {100 * f['its utilisation']:.1f}%",
        f"operands    {f['operands']}, {f['operand latency']:.2f} cycles on the way on the mean",
        f"queues      {f['ready, mean']:.2f} complete instances wait on the mean,"
        f" {f['ready, most of an element']} at most on an element; an instance waits {f['wait for an element']:.2f}"
        " cycles",
        f"matching    {f['matching, mean']:.2f} entries on the mean, {f['matching, most of an element']} at most in"
        f" an element; {f['matching misses']} misses, {f['put off']} tokens put off, {f['swaps']} instructions"
        " swapped in",
        f"memory      an operation waits {f['memory wait']:.2f} cycles from its firing to its issue, of which"
        f" {f['memory wait for the chain']:.2f} for its turn",
    ]
    if f["lookups"]:
        out.append(f"homes       the table of waves was asked {f['lookups']} times")
    if f["addresses alone"]:
        out.append(f"stores      {f['addresses alone']} sent their address before their data came")
    return [
        *out,
        f"cache       {f['load hits']} loads hit, {f['load misses']} miss; {f['store hits']} stores hit,"
        f" {f['store misses']} miss",
        f"critical    {f['critical']}, {100 * share(path.parts[f['critical']], path.end):.1f}% of the cycles:"
        f" {PARTS[f['critical']]}",
    ]


def text(figures: Figures) -> str:
    """The summary, the path, operands and requests."""
    path, out = figures.path, summary(figures)
    out += ["", f"the path back from the last event has {path.steps} events; its {path.end} cycles go to:"]
    for part, cycles in sorted(path.parts.items(), key=lambda one: -one[1]):
        if cycles:
            out.append(f"  {part:17}{cycles:9}  {100 * cycles / max(path.end, 1):5.1f}%")
    out.append(f"  it waits {path.by[BY_WAVES]} times for waves in flight, {path.by[BY_CHAIN]} times for memory's"
               " order")
    out += ["", f"{'operands':12}{'tokens':>9}{'share':>8}"]
    for name, many in zip(CLASSES, figures.operands):
        if many:
            out.append(f"{name:12}{many:9}{100 * many / max(sum(figures.operands), 1):7.1f}%")
    out += ["", f"{'requests':12}{'issues':>9}{'early':>8}{'wait, mean':>12}{'most':>7}{'for its turn':>14}"]
    for op, (many, early, wait, most, turn) in figures.memory.items():
        out.append(f"{op:12}{many:9}{early:8}{wait / many:12.2f}{most:7}{turn / many:14.2f}")
    return "\n".join(out) + "\n"


def brief(figures: Figures) -> str:
    """Lines as `wsc` ends an answer with: a name and a whole number each."""
    f = figures.facts()
    return "".join(f"{name} {f[fact]}\n" for fact, name in BRIEF.items())


def by_element(figures: Figures) -> dict[str, list[int]]:
    """Counts of each element."""
    record, flat = figures.record, figures.flat
    lying = [0] * flat.shape.count
    for i in range(1, flat.count):
        lying[flat.place[i]] += 1
    return {"instructions": lying, "firings": record.fires, "busy cycles": record.busy,
            "ready, cycles of all": record.waited, "ready, most": record.most_ready,
            "matching, cycles of all": record.stayed, "matching, most": record.most_in,
            "matching misses": record.misses, "put off": record.put_off}


def table(figures: Figures) -> Iterator[tuple[Any, Any, Any, Any]]:
    """Rows of what a number is of, which one, what it counts, and the number."""
    record, flat = figures.record, figures.flat
    yield "of", "which", "what", "value"
    for name, value in figures.facts().items():
        yield "run", "", name, number(value)
    for part, cycles in figures.path.parts.items():
        yield "critical path", part, "cycles", cycles
    for name, many in zip(CLASSES, figures.operands):
        yield "operands", name, "tokens", many
    for op, row in figures.memory.items():
        for name, value in zip(("issues", "early", "wait, all", "wait, most", "wait for its turn, all"), row):
            yield "request", op, name, value
    counts = by_element(figures)
    for element in range(flat.shape.count):
        for name, values in counts.items():
            yield "element", element, name, values[element]
    for at, cycle in enumerate(record.marks[::2]):
        for k, name in enumerate(ROW):
            yield "cycle", cycle, name, record.rows[len(ROW) * at + k]


def as_json(figures: Figures, machine: Values, made_by: Mapping[str, str]) -> str:
    """All figures of the run, the machine, and what made them, as one object."""
    told = {
        "made by": dict(made_by), "machine": machine, "end": figures.end, "facts": figures.facts(),
        "critical path": figures.path.parts, "operands": dict(zip(CLASSES, figures.operands)),
        "requests": {op: dict(zip(("issues", "early", "wait", "most", "turn"), row))
                     for op, row in figures.memory.items()},
        "elements": by_element(figures),
    }
    return json.dumps(told, indent=1) + "\n"
