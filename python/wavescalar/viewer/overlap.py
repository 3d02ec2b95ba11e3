"""Which waves of a run work side by side, as a picture: a row for each wave number, a column for each ideal round.

A square says how many instances of that wave number fire in the round; a ring stands where an operation on memory is
issued. Rounds are those of the profiler: all that can happen when a round begins happens in it.
"""

from __future__ import annotations

from collections import Counter

from wavescalar.machine import Step, rounds
from wavescalar.numbered import read
from wavescalar.viewer.plot import INK, SOFT, Sheet

# At most so many rows, columns and events are drawn.
MOST_WAVES, MOST_ROUNDS, MOST_EVENTS = 40, 120, 20000
# As page.css colours wave numbers, from 1 on.
COLOURS = ("#0072b2", "#c8500a", "#00805c", "#b0437f", "#8a6000", "#6a4fb3", "#a33030", "#1b2f6b", "#4f7000", "#5d3a1a")
LEFT, TOP = 96, 96


def paler(colour: str, part: float) -> str:
    """A mixture of white and so much of a colour, from 0 to 1."""
    mixed = (round(255 + (int(colour[at:at + 2], 16) - 255) * part) for at in (1, 3, 5))
    return "#" + "".join(f"{value:02x}" for value in mixed)


def counted(steps: list[Step]) -> tuple[Counter[tuple[int, int]], Counter[tuple[int, int]]]:
    """Firings, and issues, by wave number and round."""
    fires: Counter[tuple[int, int]] = Counter()
    issues: Counter[tuple[int, int]] = Counter()
    for step in steps:
        if "full" in step:
            fires[step["w"], step["round"]] += 1
        elif step["k"] == "issue":
            issues[step["w"], step["round"]] += 1
    return fires, issues


def picture(text: str, title: str) -> str:
    """The picture of an assembly's run, with its input section, as SVG."""
    _, steps, why = rounds(read(text), MOST_EVENTS)
    fires, issues = counted(steps)
    waves = sorted({wave for wave, _ in [*fires, *issues] if wave})
    last = max((number for _, number in [*fires, *issues]), default=1)
    rows, columns = waves[:MOST_WAVES], min(last, MOST_ROUNDS)
    size = max(8, min(22, 900 // columns))
    cut = "; the first of them are drawn" if why or len(waves) > len(rows) or last > columns else ""
    beside = max((len({wave for wave, at in fires if at == number}) for number in range(1, last + 1)), default=0)
    told = f"{sum(fires.values())} firings of {len(waves)} wave numbers in {last} rounds, of at most {beside} in one round"
    sheet = Sheet(max(LEFT + size * columns + 30, 560), TOP + size * len(rows) + 54, title,
                  (told + cut, "number: firings; dark edge: memory operations are issued"))
    for row, wave in enumerate(rows):
        y = TOP + size * row
        sheet.text(LEFT - 10, y + size / 2 + 4, f"wave {wave}", 12, INK, "end")
        for number in range(1, columns + 1):
            _square(sheet, (LEFT + size * (number - 1), y, size), COLOURS[(wave - 1) % len(COLOURS)],
                    fires[wave, number], issues[wave, number])
    for number in range(0, columns + 1, 5):
        if number:
            sheet.text(LEFT + size * (number - 0.5), TOP + size * len(rows) + 17, number, 11, SOFT, "middle")
    sheet.text(LEFT + size * columns / 2, TOP + size * len(rows) + 38, "round", 12, SOFT, "middle")
    return sheet.svg()


def _square(sheet: Sheet, place: tuple[float, float, float], colour: str, fires: int, issues: int) -> None:
    """A wave number in a round."""
    x, y, size = place
    if issues:
        sheet.rect(x, y, size - 1, size - 1, INK)
    if fires or issues:
        edge = 2 if issues else 0
        sheet.rect(x + edge, y + edge, size - 1 - 2 * edge, size - 1 - 2 * edge,
                   paler(colour, min(0.35 + 0.13 * fires, 1.0)) if fires else "#ffffff")
    if fires and size >= 12:
        sheet.text(x + (size - 1) / 2, y + size / 2 + 4, fires, 11, "#ffffff" if fires > 2 else INK, "middle")
