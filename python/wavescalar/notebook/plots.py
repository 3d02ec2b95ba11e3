"""Plots of rows, as those of a sweep: lines, and bars. They are SVG of the viewer's own sheets, and need no other package;
the same rows give the same text on every machine.
"""

from __future__ import annotations

from collections.abc import Mapping, Sequence
from typing import Any

from wavescalar.faults import Fault
from wavescalar.notebook.show import Picture
from wavescalar.viewer.plot import COLOURS, INK, SOFT, Panel, Sheet, bars as draw_bars, short, spread

Row = Mapping[str, Any]
WIDE, TALL = 560, 250  # of a plot, in pixels
BAR = 24  # the room for a bar, in pixels


def _of(rows: Sequence[Row], *names: str) -> None:
    """Raises Fault where there are no rows, or one lacks a column."""
    if not rows:
        raise Fault("there are no rows to be drawn")
    for name in names:
        if any(name not in row for row in rows):
            raise Fault(f"a row has no `{name}`: it has {', '.join(rows[0])}")


def lines(rows: Sequence[Row], x: str, y: str, by: str = "", title: str = "") -> Picture:
    """A line for each value of the column `by`, or one. The values of column x stand side by side in rising order, at the
    same distance; y begins at 0. Raises Fault where a column lacks."""
    _of(rows, x, y, *filter(None, [by]))
    places = sorted({row[x] for row in rows})
    names = list(dict.fromkeys(str(row[by]) for row in rows)) if by else [""]
    told = title or f"{y} by {x}"
    beside = 14 + 7 * max(map(len, names))
    sheet = Sheet(90 + WIDE + beside, TALL + 130, told, (f"{len(rows)} runs",))
    panel = Panel(sheet, (70, 110, WIDE, TALL - 50), y, x, low=-0.3, high=len(places) - 0.7, top=max(row[y] for row in rows),
                  whole=False)
    for at, place in enumerate(places):
        sheet.text(panel.at_x(at), panel.y + panel.h + 17, place, 11, SOFT, "middle")
    ends = []
    for number, name in enumerate(names):
        colour = COLOURS[number % len(COLOURS)]
        mine = sorted((row for row in rows if not by or str(row[by]) == name), key=lambda row: places.index(row[x]))
        points = [(panel.at_x(places.index(row[x])), panel.at_y(row[y])) for row in mine]
        sheet.path(points, colour, 2)
        for point in points:
            sheet.dot(*point, colour)
        ends.append((points[-1], name, colour))
    for at_y, ((at_x, _), name, colour) in zip(spread([end[0][1] for end in ends], 14), ends):
        sheet.text(at_x + 9, at_y + 4, name, 12, colour if name else INK)
    return Picture(sheet.svg(), told)


def bars(rows: Sequence[Row], name: str, value: str, title: str = "") -> Picture:
    """A bar for each row: its name, and its value, 0 or more. Raises Fault where a column lacks."""
    _of(rows, name, value)
    told = title or f"{value} by {name}"
    tall = BAR * len(rows)
    sheet = Sheet(90 + WIDE, tall + 130, told, (f"{len(rows)} runs",))
    draw_bars(sheet, (60, 105, WIDE, tall), value, [(str(row[name]), row[value], short(row[value]), 0) for row in rows])
    return Picture(sheet.svg(), told)
