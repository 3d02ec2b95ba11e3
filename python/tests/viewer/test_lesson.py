"""The numbers that docs/LESSON.md tells: they come out, and they stand there.

Jobs are those of the page, and orders are made by the modules of the page of wsc-serve.
"""

import re
from collections import Counter
from collections.abc import Callable
from typing import Any

import pytest

from tests import asked
from tests.scripts import Scripts
from wavescalar.programs import ROOT

PAGE = re.sub(r"\s+", " ", (ROOT / "docs" / "LESSON.md").read_text())
SUM, SQUARES, EARLY = ((ROOT / file).read_text() for file in (
    "examples/sum.job", "examples/viewer/squares.job", "examples/viewer/early.job"))
LATER = EARLY.replace("  y = y + a[0];", "  a[x & 1] = x;\n  y = y + a[0];")
LARGER = SQUARES.replace("i < 4", "i < 8").replace("    print x;", "    x = x * x;\n    x = x * x;\n    print x;")
SEEDS = range(30)
# Events of an order at most.
MOST = 10000


class Lesson:
    """What the page says, and what comes of it."""

    def __init__(self, scripts: Scripts):
        self.scripts = scripts

    def order(self, job: str, name: str) -> list[Any]:
        """The steps of a run of a job in an order."""
        return list(self.scripts("order", job, name, MOST)["steps"])

    def parts(self, job: str, name: str) -> int:
        """How many rounds or cycles it takes."""
        last = self.order(job, name)[-1]
        return int(last.get("round") or last["cycle"])

    def want(self, said: str, found: object, wanted: object) -> None:
        """Something is as it is said, and the page says it so."""
        asked.want(said, found, wanted)
        assert said in PAGE, f"LESSON.md doesn't say: {said}"


def of_orders(lesson: Lesson) -> None:
    """One program in two orders, and its tokens in rounds."""
    told = lesson.scripts("shown", SUM, ["trace", "random-1"], MOST)["compared"]
    lesson.want("The same 231 events in two orders: at 25 places stands the same event", (told["of"], told["at"]),
                ([231, 231], 25))
    rounds = lesson.order(SUM, "rounds")
    come = {r: Counter(s["w"] for s in rounds if s["round"] == r + 1 and s["k"] == "match") for r in (10, 12)}
    lesson.want("Those of wave number 3 alone", list(come[10]), [3])
    lesson.want("Those of the second and of the third turn", sorted(come[12]), [3, 4])


def of_turns(lesson: Lesson) -> None:
    """How long a turn takes, and how many cycles a grid."""
    fired = [s["round"] for s in lesson.order(SUM, "rounds") if s["i"] == 7 and "full" in s]
    lesson.want("fires in the rounds 5, 10, 15, 20", fired[:4], [5, 10, 15, 20])
    taken = [lesson.parts(SUM.replace("\n10\n", f"\n{n}\n"), "rounds") for n in (3, 10, 100)]
    lesson.want("The input 3 takes 23 rounds and 10 takes 58", taken[:2], [23, 58])
    lesson.want("100 takes 508", taken[2], 508)
    one, two, four, many = (lesson.parts(SUM, f"grid-{n}-4") for n in (1, 2, 4, 64))
    lesson.want("A grid with one element takes 144 cycles", one, 144)
    lesson.want("two elements take 79, four 58", (two, four, many), (79, 58, 58))
    lesson.want("58 with any number of waves", {lesson.parts(SUM, f"grid-16-{n}") for n in (1, 2, 4, 64)}, {58})


def of_waves(lesson: Lesson) -> None:
    """Turns side by side."""
    lesson.want("44 and 28 cycles", [lesson.parts(SQUARES, f"grid-4-{n}") for n in (1, 2)], [44, 28])
    waves: dict[int, set[int]] = {}
    for s in lesson.order(SQUARES, "grid-4-2"):
        if "element" in s:
            waves.setdefault(s["cycle"], set()).add(s["w"])
    lesson.want("in 16 of B's cycles two turns fire", sum(len(it) > 1 for it in waves.values()), 16)
    more = [lesson.parts(SQUARES, name) for name in ("grid-4-4", "grid-16-2", "grid-16-4", "rounds")]
    lesson.want("4 waves or 16 elements take 28 cycles again, and so do the rounds", set(more), {28})
    larger = [lesson.parts(LARGER, f"grid-64-{n}") for n in (2, 3, 4)]
    lesson.want("53 cycles with 2 waves, 50 with 3, 50 with 4, on 64 elements", larger, [53, 50, 50])


def of_loads(lesson: Lesson) -> None:
    """Loads before their turn."""
    def loads(job: str, seed: int) -> list[int]:
        return [s["i"] for s in lesson.order(job, f"random-{seed}") if s["k"] == "issue" and "at" in s]

    lesson.want("the loads are done in the order of the program (7, then 8)", loads(EARLY, 4), [7, 8])
    lesson.want("In B the load of `a[0]` (8) comes first", loads(EARLY, 1), [8, 7])
    found = {loads(LATER, seed)[0] < loads(LATER, seed)[1] for seed in SEEDS}
    lesson.want("the load waits for it under every seed", found, {True})
    four = LATER.replace("\n5\n", "\n4\n")
    printed = {word for seed in SEEDS for s in lesson.order(four, f"random-{seed}") if (word := s.get("print"))}
    lesson.want("11 is printed, under every seed", printed, {"11"})


@pytest.mark.parametrize("act", (of_orders, of_turns, of_waves, of_loads), ids=lambda act: str(act.__name__))
def test_lesson(scripts: Scripts, act: Callable[[Lesson], None]) -> None:
    act(Lesson(scripts))
